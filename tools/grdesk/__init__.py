"""The tools of the voting desk. `cli` reads the first word and runs a command. The rooms, the lowest first:

    stop, inventory, output, dates, interruption, parser    why a command ends, what lies here, what is printed and read
    new_file    a file that is made anew, also beside files of others
    regular_file    a file that is opened to be read, and no FIFO
    desk        the desk: its file, its sheets, copies of it, and where it is reached
    acts        an act before it is sent, and what its answer means
    journal     the journal of acts: kept, held, sent, entered again, checked
    ballots     ballots that come by mail, and the answers to voters
    web         pages to look at in a browser
    package     what is packed; from the sources alone
    commands    a file a command, with its `parser` and what it does (`run`)

A module imports from its own room and from lower ones alone."""
