# A ring is registered again with another length while senders wait for room. Run it with `argo_run serial 0`.
argo 1
domain 1 pages 2
domain 2 pages 2
domain 3 pages 2

vcpu 1
ring at=0 port=5 partner=any len=96 pages=1
expect 0
vcpu 2
send from=9 to=1:5 size=48 data=0x100
expect 48
send from=9 to=1:5 size=16 data=0x100
expect -EAGAIN
vcpu 3
send from=9 to=1:5 size=64 data=0x100
expect -EAGAIN

# It becomes longer, while a message is untaken: it starts anew from its words, rx 0 and tx 64. They differ, so it starts dirty.
# Both notices stay, and nobody is signalled.
vcpu 1
ring at=0 port=5 partner=any len=112 pages=1
expect 0
vcpu 2
await 1
expect none

# So take all messages first: where both words are the same place, the ring starts clean. This time it becomes shorter, and a body of
# 64 can never fit: the notice of domain 3 ends, and domain 3 is signalled. That of domain 2 stays.
vcpu 1
recv 1 112
expect msg 2 9 0 48 ..
store 0x1000 0000000000000000
ring at=0 port=5 partner=any len=48 pages=1
expect 0
vcpu 3
await 1
expect signal
send from=9 to=1:5 size=64 data=0x100
expect -EMSGSIZE

# Domain 2 is signalled by the next sweep, since its 16 bytes fit.
vcpu 2
await 1
expect none
vcpu 1
notify
vcpu 2
await 1
expect signal
send from=9 to=1:5 size=16 data=0x100
expect 16
