# Bodies of 0 bytes. A body fits where 16 and its size, rounded up, are below the free bytes, in each call. Run it with
# `argo_run serial 0`.
argo 1
domain 1 pages 3
domain 2 pages 1
vcpu 1
ring at=0 port=5 partner=2 len=64 pages=1
expect 0
ring at=0 port=6 partner=2 len=64 pages=2
expect 0

# Bodies of 0 and 16 take 48 of 64 bytes. 16 are free, and a body of 0 waits.
vcpu 2
send from=9 to=1:5 size=0
expect 0
send from=9 to=1:5 size=16
expect 16
send from=9 to=1:5 size=0
expect -EAGAIN

# With 32 bytes free it fits, so the sweep signals domain 2. Xen 4.17 does not serve a notice of size 0 there: `none`.
vcpu 1
recv 1 64
notify
vcpu 2
await 1
expect signal

# A question for 0 bytes where 16 are free: EXISTS alone (1). Xen 4.17 answers SUFFICIENT as well (9), and ends the notice.
send from=9 to=1:6 size=32
expect 32
notify at=0x100 ask=1:6:0
expect 0
load 0x110 12
expect 010000000000000020000000
