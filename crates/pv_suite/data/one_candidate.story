create x#1 turn=0 base=0x100000000 size=4
expose x#1 turn=7
fault turn=15
