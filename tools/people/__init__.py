"""What the tools for people share. Nothing here is proved and nothing judges: a certificate is walked only after `qecode check`
said yes to it, so the walk trusts each line. Texts, predicates and the tables of verdicts are the oracle's.

    ending    how a tool ends: its refusals and statuses
    ranges    values as ranges
    words     constraints as people write them
    problem   a problem with its names, its comments and its formulas
    answers   what the program says: checked, sure, played
    walk      the tree of a certificate that was checked
    trials    a game with one variable kept to each of its values
    chart     what they come to, on a terminal
    picture   the same as SVG
    telling   an answer in sentences
    reading   a checked answer, with all that the tools read of it
    paging    an answer as a page; the page's own parts are in page/
"""
