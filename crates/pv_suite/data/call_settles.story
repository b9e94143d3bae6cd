create seven#1 turn=0 base=0x100000004 size=1
expose seven#1 turn=15
pair 1 turn=25 address=0x100000004 low=x#1 high=seven#1
use 1 turn=29 test=live left=x#1,seven#1
use 1 turn=29 test=code left=seven#1
fault turn=40
