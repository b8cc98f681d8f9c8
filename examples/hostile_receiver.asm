# The owner of a ring rewrites its header and its slots as it likes. The sender's answers are exact all the same, and nothing but the
# ring's own pages is touched. Run it with `argo_run serial 0`.
argo 1
domain 1 pages 2
domain 2 pages 1

let RX = 0x1000
let TX = 0x1004
let SLOTS = 0x1040
vcpu 1
ring at=0 port=5 partner=any len=96 pages=1
expect 0
# The tx word says 80, and the rx word has all bits set. The hypervisor keeps its own tx, and an rx word that is no place counts as 0.
# The ring is dirty from here on.
store TX 50000000
store RX ffffffff

vcpu 2
send from=9 to=1:5 size=4 data=0x100
expect 4

# The hypervisor wrote the tx word anew: 32, which is 20 in hexadecimal. An rx word of 17 counts as 32: the ring is empty.
vcpu 1
load RX 8
expect ffffffff20000000
store RX 11000000

# 60 bytes take 80 of the 96: the message goes round the end, and tx is 16. Then the span from 16 up to 32 is 16: nothing fits.
vcpu 2
send from=9 to=1:5 size=60 data=0x100
expect 60
send from=9 to=1:5 size=0 data=0x100
expect -EAGAIN

# The owner says that it has read all. It spoils the header of what it got, and its own library makes no sense of it.
vcpu 1
store RX 20000000
store SLOTS+32 ffffffff
recv 1 96
expect bad
store RX 10000000

vcpu 2
send from=9 to=1:5 size=40 data=0x100
expect 40

# The owner takes the ring away while the sender goes on.
vcpu 1
unring at=0 port=5 partner=any
expect 0
vcpu 2
send from=9 to=1:5 size=4 data=0x100
expect -ECONNREFUSED
