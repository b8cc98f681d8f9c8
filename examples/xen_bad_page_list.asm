# A ring that stands is registered again with a bad page list. Run it with `argo_run serial 0`.
argo 1
domain 1 pages 2
domain 2 pages 1
vcpu 1
ring at=0 port=5 partner=2 len=48 pages=1
expect 0
vcpu 2
send from=9 to=1:5 size=16
expect 16

# Page 99 is none of the caller's. The answer is the same in Xen 4.17, but there the ring has ended, with its notices.
vcpu 1
ring at=0 port=5 partner=2 len=48 pages=99
expect -EINVAL

# Here nothing was changed: the ring is full. Xen: ECONNREFUSED.
vcpu 2
send from=9 to=1:5 size=16
expect -EAGAIN
vcpu 1
recv 1 48
expect msg 2 9 0 16 ..
