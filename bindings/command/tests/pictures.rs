//! Pictures as `buulset draw` makes them: well formed, as stored, and right in every number by a minimax of the tests'
//! own.
mod common;
mod minimax;

use common::{prints, root, Folder};
use minimax::{random, runs, stored, Model, NONE};
use std::fs;

/// The tags of a picture are closed in order, and its attributes quoted.
fn is_well_formed(svg: &str) {
    let mut open = Vec::new();
    for tag in svg.split('<').skip(1).map(|rest| rest.split('>').next().unwrap()) {
        if let Some(name) = tag.strip_prefix('/') {
            assert_eq!(open.pop(), Some(name), "{name} is closed");
        } else if !tag.ends_with('/') {
            open.push(tag.split(' ').next().unwrap());
        }
        assert!(tag.matches('"').count() % 2 == 0, "{tag}");
    }
    assert!(open.is_empty(), "{open:?} stays open");
}

fn draw(tree: &str, more: &[&str]) -> String {
    let svg = prints(&[&["draw", tree], more].concat());
    is_well_formed(&svg);
    svg
}

#[test]
fn pictures_are_as_stored() {
    let of = |tree: &str, name: &str| {
        let stored = fs::read_to_string(root().join("docs/pictures").join(name)).unwrap();
        assert!(draw(tree, &[]) == stored, "docs/pictures/{name} is another picture than `buulset draw {tree}` makes");
    };
    for name in ["seven", "ending", "captures"] {
        of(&format!("samples/{name}.tree"), &format!("{name}.svg"));
    }
    for name in ["two-hundred", "largest"] {
        of(&format!("docs/pictures/{name}.tree"), &format!("{name}.svg"));
    }
}

/// A number as it is shown.
fn number(value: i32) -> String {
    value.to_string().replace('-', "−")
}

/// What is shown of a low and a high.
fn known(low: i32, high: i32) -> String {
    match (low == -NONE, high == NONE) {
        _ if low == high => number(low),
        (true, true) => String::new(),
        (true, false) => format!("≤ {}", number(high)),
        (false, true) => format!("≥ {}", number(low)),
        (false, false) => format!("{} to {}", number(low), number(high)),
    }
}

/// The evaluated leaves by `buulset order`.
fn order(method: &str, tree: &str) -> Vec<usize> {
    prints(&["order", method, tree]).lines().map(|l| l.split(' ').next().unwrap().parse().unwrap()).collect()
}

/// The groups of a picture: the hint of each, and the texts in it with their classes.
fn groups(svg: &str) -> Vec<(String, Vec<(String, String)>)> {
    let text = |part: &str| -> (String, String) {
        let (class, rest) = part.split_once('"').unwrap();
        (class.into(), rest.split_once('>').unwrap().1.split('<').next().unwrap().into())
    };
    let hinted = svg.split("<g><title>").skip(1).map(|group| group.split("</g>").next().unwrap());
    hinted
        .map(|group| {
            let (hint, rest) = group.split_once("</title>").unwrap();
            (hint.into(), rest.split("<text class=\"").skip(1).map(text).collect())
        })
        .collect()
}

/// Every number of a picture is right.
fn check(tree: &str, method: &str, more: &[&str]) {
    let model = Model::new(&fs::read_to_string(root().join(tree)).unwrap());
    let order = order(method, tree);
    let mut evaluated = vec![false; model.nodes()];
    order.iter().for_each(|&leaf| evaluated[leaf] = true);
    let (low, high) = model.bounds(&evaluated);
    let svg = draw(tree, &[&["--method", method], more].concat());
    assert!(svg.contains(&format!("Value {}</text>", number(low[0]))));
    let mut shown = vec![false; model.nodes()];
    for (hint, texts) in groups(&svg) {
        let (nodes, said) = hint.split_once(": ").unwrap();
        let nodes = nodes.trim_start_matches("nodes ").trim_start_matches("node ");
        let (first, last) = nodes.split_once('–').unwrap_or((nodes, nodes));
        let (first, last): (usize, usize) = (first.parse().unwrap(), last.parse().unwrap());
        let of = |class: &str| texts.iter().find(|(c, _)| c.split(' ').next() == Some(class)).map(|(_, text)| text);
        if said.starts_with("a leaf worth ") && !said.contains("passed over") {
            assert_eq!(of("w"), Some(&number(model.worth[first])));
            let rank = order.iter().position(|&leaf| leaf == first).unwrap() + 1;
            assert_eq!(of("e"), Some(&format!("no. {rank}")));
        } else if said.contains(" moves") {
            assert_eq!(of("v").map_or("", String::as_str), known(low[first], high[first]), "{tree}: {hint}");
            assert!(said.starts_with(if model.max[first] { "Max moves" } else { "Min moves" }));
        } else if said.contains("passed over.") {
            let brief = &texts.iter().filter(|(class, _)| class == "q").nth(1).expect("there is a reason").1;
            has_reason(&model, first, brief, said);
        } else if first == last {
            assert_eq!(of("v"), Some(&known(low[first], high[first])));
        }
        shown[first..=last].fill(true);
    }
    // every node is shown, or one above it
    assert!((1..model.nodes()).all(|k| shown[k] || model.path(k).iter().any(|&(above, _)| shown[above])));
}

/// The reason of a row, in few words and in plain ones: two choices beside the path that leave nothing between them.
fn has_reason(model: &Model, first: usize, brief: &str, said: &str) {
    let numbers = |text: &str| -> Vec<i32> {
        let words = text.split([' ', ';', ',', '.', ':']).filter(|word| !word.is_empty());
        words.filter_map(|word| word.replace('−', "-").parse().ok()).collect()
    };
    let brief = numbers(brief);
    let plain = numbers(said.split_once("At node").unwrap().1);
    let [at, known, by, has, other] = plain[..5] else { panic!("{said}") };
    assert!(brief == [known, has, other] || brief == [known, at, has, other], "{brief:?} {said}");
    let above = model.parent[other as usize];
    let path = model.path(first);
    assert!(path.iter().any(|&(node, _)| node == above) && path.iter().any(|&(node, _)| node == at as usize));
    assert_eq!(model.parent[by as usize], at as usize);
    assert!(path.iter().all(|&(_, child)| child != by as usize && child != other as usize));
    assert_ne!(model.max[above], model.max[at as usize]);
    assert!(if model.max[above] { has >= known } else { known >= has });
}

#[test]
fn every_number_is_right() {
    let folder = Folder::new("numbers");
    for tree in stored() {
        for method in ["ab", "mtd", "sss", "mtdf:2"] {
            check(&tree, method, &[]);
            check(&tree, method, &["--rows", "12"]);
            check(&tree, method, &["--rows", "5000"]);
        }
    }
    for seed in 0..25 {
        let tree = folder.file("random.tree", random(seed));
        for method in ["ab", "sss", "mtdf:0"] {
            check(&tree, method, &[]);
            check(&tree, method, &["--rows", "9"]);
        }
    }
}

#[test]
fn pictures_show_what_is_asked() {
    let ending = |more: &[&str]| draw("samples/ending.tree", more);
    let sss = ending(&[]);
    assert!(sss.contains("Value −20</text>") && sss.contains("best line <tspan class=\"x\">2 – 9</tspan>"));
    assert!(sss.contains("SSS* evaluated 11 of 19 leaves; 5 of them prove the value."));
    assert!(sss.contains("≤ −50; Max has −20 at node 2") && sss.contains("Why nodes 6–7 were passed over:"));
    assert_eq!(sss, ending(&["--method", "sss"]));
    assert_eq!(sss.matches(">no. ").count(), 11, "a number for each evaluated leaf");
    let svg = sss.lines().next().unwrap();
    assert!(svg.contains("viewBox=\"0 0 ") && !svg.contains("width=") && !svg.contains("height="), "{svg}");
    assert!(sss.contains("prefers-color-scheme:dark"));
    assert!(ending(&["--method", "ab"]).contains("Alpha-beta evaluated 15 of 19"));
    assert!(ending(&["--method=mtd"]).contains("MTD evaluated 11 of 19 leaves"));
    assert!(ending(&["--method=mtdf:-20"]).contains("MTD(f) from −20 evaluated"));
    let plain = ending(&["--method", "plain"]);
    assert!(plain.contains("all 19 leaves") && !plain.contains("passed over") && !plain.contains("no. 1"));
    // everything has a hint, also what was passed over
    let all = ending(&["--all"]);
    assert!((0..28).all(|k| all.contains(&format!("<title>node {k}: "))));
    assert!(all.contains(">worth −70</text>"));
    let (status, _, err) = runs(&["draw", "samples/ending.tree", "--watch"]);
    assert!(status == 2 && err.contains("`buulset watch` is a command of its own"), "{err}");
    // a root that is a leaf, and wins
    let folder = Folder::new("draw");
    let leaf = draw(&folder.file("leaf", "000000007B0C\n"), &[]);
    assert!(leaf.contains("Value 31500<") && leaf.contains("The root is a leaf."));
    assert!(draw("samples/wins.tree", &[]).contains("a win, stored as 31500"));
}

#[test]
fn a_certificate_alone_says_so() {
    let ending = |more: &[&str]| draw("samples/ending.tree", more);
    let own = ending(&["--certificate", "samples/ending.certificate"]);
    assert!(own.contains("A certificate: 5 of 19 leaves prove the value.") && own.contains("not in the certificate"));
    assert!(!own.contains("passed over") && !own.contains("evaluated as"));
    assert!(own.contains("best line <tspan class=\"x\">2 – 9<") && !own.contains("a best line"));
    // another certificate proves the value by another best move, which is not called the move
    for more in [&[][..], &["--method", "sss"]] {
        let long = ending(&[&["--certificate", "samples/ending-long.certificate"], more].concat());
        assert!(long.contains("a best line <tspan class=\"x\">4 – 13<"), "{long}");
        assert!(long.contains("The move, the first best one, is 2."));
        assert_eq!(long.matches(", the move<").count(), 1);
        assert!(long.contains("<title>node 2: ") && long.contains(", the move</title>"));
    }
    let folder = Folder::new("certificate");
    let bad = folder.file("bad", "3\n");
    let (status, out, err) = runs(&["draw", "samples/ending.tree", "--certificate", &bad]);
    assert_eq!((status, out.as_str()), (1, "refused 10 0\n"));
    assert!(err.contains("bad"), "{err}");
    let (status, _, err) = runs(&["draw", "samples/ending.tree", "--method", "x"]);
    assert!(status == 2 && err.contains("METHOD is ab, mtd, mtdf:N, sss or plain"), "{err}");
}

#[test]
fn moves_have_names() {
    let folder = Folder::new("names");
    let names = folder.file("names", "2 32-28\n9  19x23\n\n1 <b>&\r\n");
    let svg = draw("samples/ending.tree", &["--names", &names]);
    assert!(svg.contains("best line <tspan class=\"x\">32-28, 19x23</tspan>"));
    assert!(svg.contains(">2 32-28</text>") && svg.contains(">1 &lt;b&gt;&amp;</text>") && !svg.contains("<b>"));
    let bad = folder.file("bad", "2 32-28\nnine 19x23\n");
    let (status, _, err) = runs(&["draw", "samples/ending.tree", "--names", &bad]);
    assert!(status == 2 && err.contains("line 2"), "{err}");
}

#[test]
fn a_picture_keeps_to_its_rows() {
    let largest = "docs/pictures/largest.tree";
    let rows = |svg: &str| svg.matches("<g><title>").count() - svg.matches(" moves, value").count();
    for (given, most) in [("20", 20), ("40", 40), ("100", 100), ("200", 200)] {
        let count = rows(&draw(largest, &["--rows", given]));
        assert!(count <= most && count * 5 >= most * 4, "{count} rows of {given}");
    }
    assert_eq!(draw(largest, &[]), draw(largest, &["--rows", "40"]));
}
