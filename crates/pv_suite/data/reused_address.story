create first#1 turn=2 base=0x100000000 size=4
end first#1 turn=9
fault turn=19
