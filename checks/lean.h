/* The public calls in lean C (c_.., lean.c) and in lean safe Rust (rust_.., lean.rs): types and arguments are those of the
   shipped header. */
#ifndef LEAN_H
#define LEAN_H
#include "../bindings/c/buulset.h"

#define ALSO(call) __typeof__(buulset_##call) c_##call, rust_##call
ALSO(read);
ALSO(write);
ALSO(convert);
ALSO(check);
ALSO(alphabeta);
ALSO(plain);
ALSO(mtd);
ALSO(mtdf);
ALSO(sss);
ALSO(line);
ALSO(verify);
ALSO(shorter);
ALSO(graft);
ALSO(least_value);
ALSO(fill);
ALSO(least_leaves);
ALSO(report);
#undef ALSO
#endif
