# Format 2: domains are reset, destroyed and created anew, and a section names the generation of its domain. Run it with
# `argo_run serial 0`.
argo 2
domain 1 pages 3
domain 2 pages 2

vcpu 1
ring at=0 port=5 partner=any len=48 pages=1
expect 0
ring at=0 port=6 partner=2 len=48 pages=2
expect 0
vcpu 2
ring at=0 port=7 partner=any len=48 pages=1
expect 0
send from=9 to=1:5 size=16 data=0x100
expect 16
send from=9 to=1:5 size=16 data=0x100
expect -EAGAIN
# A script has one control section, and its lines run with no break under seed 0. Sections of generation 1 before it have run by then.
control
# A reset of domain 2 ends its rings, its notices, and the ring that domain 1 has for it alone. It leaves its pages.
reset 2
expect 0
# It stands, so it is not created: EEXIST. Then it is destroyed, which ends the same, and its memory. A second time it is not there.
create 2
expect -EEXIST
destroy 2
expect 0
destroy 2
expect -ESRCH
create 2
expect 0

# Domain 2 lives in generation 2, with zeros in its pages and no ring. What generation 1 sent stands in the ring of domain 1.
vcpu 2 gen 2
load 0x20 4
expect 00000000
unring at=0 port=7 partner=any
expect -ENOENT
send from=9 to=1:5 size=16 data=0x100
expect -EAGAIN
send from=9 to=1:6 size=16 data=0x100
expect -ECONNREFUSED

# A section of generation 1 that comes too late is gone.
vcpu 2
load 0 1
expect gone

# Domain 1 takes the message of generation 1 and tells generation 2 that there is room.
vcpu 1
recv 1 48
expect msg 2 9 0 16 ..
notify
expect 0
vcpu 2 gen 2
await 1
expect signal
