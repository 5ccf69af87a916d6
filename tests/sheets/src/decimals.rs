//! Proofs with weights in decimals, in the form in which a numeric solver prints them: of the
//! polynomials from the source papers, and of the posts. Taken times the scale and rounded, they are
//! the weights of the examples. No solver's run stands behind them, and the papers print bounds but
//! no such weights: they were written for the examples.

/// The text of the proof, for the examples that have such a one.
pub fn proof(name: &str) -> Option<&'static str> {
    let found = PROOFS.iter().find(|(other, _)| *other == name);
    found.map(|(_, text)| *text)
}

const PROOFS: [(&str, &str); 10] = [
    (
        "five-squares",
        "proof\n\
         variables 2\n\
         scale 2\n\
         row pair v 4 8 w 8 4 p 1.49999 q 1.50001 r -3.00000\n\
         row pair v 2 4 w 6 12 p 1.00000 q 1.00000 r -2.00000\n\
         row pair v 0 0 w 4 8 p 0.50000 q 0.50001 r -1.00000\n\
         row pair v 4 2 w 12 6 p 1.00000 q 0.99999 r -2.00000\n\
         row pair v 0 0 w 8 4 p 0.50000 q 0.49999 r -1.00000\n",
    ),
    (
        "two-simplices",
        "proof\n\
         variables 2\n\
         scale 1\n\
         row pair v 0 0 w 4 2 p 227.2727 q 11.0000 r -100.0000\n\
         row pair v 4 0 w 4 4 p 0.9758 q 31.0000 r -11.0000\n\
         row pair v 0 0 w 2 4 p 166.6667 q 15.0000 r -100.0000\n\
         row pair v 0 4 w 4 4 p 3.0000 q 18.7500 r -15.0000\n",
    ),
    (
        "one-simplex",
        "proof\n\
         variables 2\n\
         scale 1000\n\
         row pair v 0 0 w 2 2 p 6.067961 q 1.030000 r -5.000000\n\
         row pair v 0 4 w 4 0 p 0.515000 q 0.515000 r -1.030000\n\
         row pair v 0 4 w 2 0 p 0.323000 q 0.773994 r -1.000000\n\
         row pair v 0 0 w 4 0 p 0.925000 q 0.161910 r -0.773994\n\
         row pair v 4 0 w 0 2 p 0.323000 q 0.773994 r -1.000000\n\
         row pair v 0 0 w 0 4 p 0.925000 q 0.161910 r -0.773994\n",
    ),
    (
        "toy-circuits",
        "proof\n\
         variables 2\n\
         scale 1\n\
         row pair v 0 2 w 4 2 p 1.00000 q 1.00000 r -2.00000\n\
         row pair v 2 2 w 6 2 p 1.00000 q 1.00000 r -1.00000\n\
         row lone v 2 6 p 1.00000\n",
    ),
    (
        "newton-polytope",
        "proof\n\
         variables 2\n\
         scale 10\n\
         row pair v 2 4 w 2 6 p 0.400003 q 0.699998 r -1.000000\n\
         row pair v 2 2 w 4 4 p 0.600001 q 0.499999 r -1.000000\n\
         row pair v 2 4 w 6 4 p 0.099998 q 1.000000 r -0.499999\n\
         row pair v 2 2 w 2 6 p 0.399999 q 0.300002 r -0.500001\n",
    ),
    (
        "degree-eight",
        "proof\n\
         variables 2\n\
         scale 10\n\
         row pair v 0 0 w 2 4 p 0.2998 q 0.9012 r -1.0000\n\
         row pair v 0 0 w 4 2 p 0.7002 q 1.5021 r -2.0000\n\
         row pair v 2 2 w 2 6 p 0.5013 q 2.3964 r -0.9012\n\
         row pair v 2 2 w 6 2 p 3.1988 q 1.4987 r -1.5021\n\
         row pair v 2 2 w 4 4 p 2.2999 q 0.9985 r -3.0000\n\
         row pair v 2 6 w 6 2 p 0.6036 q 0.5013 r -0.9985\n",
    ),
    (
        "degree-six",
        "proof\n\
         variables 2\n\
         scale 1\n\
         row pair v 0 0 w 0 4 p 1.0000 q 1.0000 r -2.0000\n\
         row pair v 0 2 w 0 6 p 1.0000 q 3.0000 r -1.0000\n\
         row lone v 4 0 p 0.0000\n\
         row lone v 6 0 p 0.0000\n",
    ),
    (
        "dwarfed-square",
        "proof\n\
         variables 2\n\
         scale 1\n\
         row pair v 0 0 w 2 2 p 1.0000 q 1.0000 r -2.0000\n\
         row pair v 2 2 w 4 0 p 1.0000 q 1.0000 r -2.0000\n\
         row pair v 0 4 w 4 0 p 4.0000 q 3.0000 r -2.0000\n\
         row lone v 2 4 p 1.0000\n\
         row lone v 4 2 p 2.0000\n",
    ),
    ("post-4", POST),
    ("post-9", POST),
];

/// The proof of both posts, with five digits.
const POST: &str = "proof\n\
    variables 2\n\
    scale 1\n\
    row pair v 0 2 w 2 0 p 3.9998e6 q 1.0000 r -4.0000e3\n";
