create x#1 turn=0 base=0x7fff00000000 size=4
expose x#1 turn=5
fault turn=10
