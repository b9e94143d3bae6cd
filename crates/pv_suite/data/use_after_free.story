create @heap#1 turn=4 base=0x10040 size=4
end @heap#1 turn=14
fault turn=17
