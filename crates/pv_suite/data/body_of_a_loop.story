create square#1 turn=11 base=0x10040 size=4
end square#1 turn=22
fault turn=34
