create x#1 turn=0 base=0x100000000 size=4
expose x#1 turn=7
pair 1 turn=14 address=0x100000004 low=x#1 high=y#1
use 1 turn=16 test=live left=x#1,y#1
use 1 turn=19 test=live left=x#1,y#1
use 1 turn=20 test=range left=x#1
fault turn=30
