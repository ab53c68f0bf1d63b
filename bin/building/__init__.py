"""How the crates are proved, built and run: the modules of the commands of bin/.
    crates    the crates' graph, the kit, and the words of its tools
    kept      the sum of what something is made of, the stamp that keeps it, and the locks
    running   work beside other work, within cores and memory
    proving   a crate proved and built, over all that it stands on
    trying    the program built without its proofs
    unproved  what bin/test tries and the demo of members runs, built without proofs and optimized
    layer     the layer of C, as far as it is made of bully.h
    library   the library for C
"""
