create @heap#1 turn=4 base=0x10020 size=4
end @heap#1 turn=7
fault turn=10
