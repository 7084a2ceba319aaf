"""One game over many processors and machines: cut into pieces, solved by many programs, merged into one certificate.

    domains       sets of numbers as spans
    problem       a problem's text, and the same text with some variables kept to fewer values
    certificates  what stands at a certificate's beginning, and its tree as a case of another tree
    tree          the pieces: what each comes to, which are still needed, how they are split
    merging       the certificate of the whole
    store         results in a folder, named by what they are, and the journal from which a run goes on
    engines       processes here and on other machines; dask
    clock         an engine that replays runs on a clock of processor seconds, for tests and measurements
    run           which piece is run when
    folder        pieces as files, for make, GNU parallel and Slurm
    command       the words of the command line, and the statuses

Nothing here is trusted: `qecode check` judges what comes out. docs/many.md tells why a merge is right.
"""
