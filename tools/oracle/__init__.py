"""Problems, games and certificates as the pages of docs/ describe them, written apart from the program: the one place in Python
that reads them and knows the predicates. The tools for people use it, and the comparisons of bench/.

    predicates    what each predicate takes, when it holds, and when values left refute or entail it
    reader        reads problem texts, and says what `qecode print` has to write
    games         who wins, and what is optimal, by going over all moves
    certificates  reads certificates, and says what they prove
    promises      what `solve` promises of its certificates besides
    lemmas        reads lists of lemmas, and says what they prove
    optima        what a value and two such lists prove, where both sides care for one quantity
    dense         reads dense certificates, and says what they prove
"""
