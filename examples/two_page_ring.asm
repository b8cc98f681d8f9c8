# A ring for every domain that stands on two pages, and three messages from two domains. Run it with `argo_run serial 0`.
argo 1
domain 1 pages 3
domain 2 pages 2
domain 3 pages 2

# 4,096 slot bytes and the 64 of the header need two pages. They may be any two, but recv wants the second behind the first.
let LEN = 4096
vcpu 1
ring at=0 port=5 partner=any len=LEN pages=1,2
expect 0

vcpu 2
send from=9 to=1:5 body="first" type=1
expect 5
vcpu 3
send from=9 to=1:5 data=0x1000 size=2000 type=2
expect 2000
# This one lies across the end of the ring's first page, at slot 4,032.
vcpu 2
bytes at=0x1000+1988 body="end of third"
send from=9 to=1:5 data=0x1000 size=2000 type=3
expect 2000

# Three messages set one flag. So a receiver that was signalled takes messages until its ring is empty.
vcpu 1
await 1
expect signal
recv 1 LEN
expect msg 2 9 1 5 6669727374
recv 1 LEN
expect msg 3 9 2 2000 ..
recv 1 LEN
expect msg 2 9 3 2000 ..
recv 1 LEN
expect empty
await 1
expect none
# It tells those who wait for room. Here nobody does.
notify
expect 0
