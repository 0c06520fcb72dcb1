# Of what the prover says while it builds a crate, a line for each crate that is proved.
progress() {
    crate=
    while IFS= read -r line; do
        case $line in
        "crate "*": "*) crate=${line#crate } crate=${crate%%:*} ;;
        "logic=proved "*) echo "$crate proved" ;;
        esac
    done
}
