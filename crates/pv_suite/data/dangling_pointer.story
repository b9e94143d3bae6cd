create number#1 turn=4 base=0x10040 size=4
end number#1 turn=9
fault turn=11
