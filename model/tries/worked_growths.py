"""The words, the script and the file of the tries that refuse growths of memory: those of crates/df_growths."""

import re

BEFORE = b"append 5 1 -\nreply 1 aa\nblock 1 bb\ncheckpoint 0102\nstep\nstep\n"
# A copy of the superblock, a sector of headers, and a sector of the referenced block.
HURT = (1, 4, 80)
SCRIPT = (
    b"append 5 2 0102\nreply 2 cc\nprepare 2\nlookup 5\nappend 0 1 -\nblock 2 dd\nread 3\nscrub\nrelease 1\ncheckpoint -\nstep\n"
    b"step\nscrub\nrecent\nappend 6 1 -\n"
)
WORDS = (
    ["format", "small", "7"], ["format", "small", "0"], ["run"], ["recover"], ["inspect"], ["scrub"], ["workload", "42", "20"], ["walk"],
)
FACTS = re.compile(rb"status (\d+)\nevents (\d+) (\d+)\nunread (\d+) (\d+)\nrefused (\d+) (\d+)\nrecover (\d+)\n")
