# A ring is full, its sender is told so, waits, and is signalled once there is room. Run it with `argo_run serial 0`.
argo 1
domain 1 pages 2
domain 2 pages 1

# 96 slot bytes: a body of 16 takes 32 of them, and the last free byte is never taken. So two bodies fit, and a third does not.
vcpu 1
ring at=0 port=5 partner=2 len=96 pages=1
expect 0

vcpu 2
send from=9 to=1:5 size=16 data=0x100
expect 16
send from=9 to=1:5 size=16 data=0x100
expect 16
# The size 16 is noted for domain 2.
send from=9 to=1:5 size=16 data=0x100
expect -EAGAIN
await 1
expect none

# Taking a message signals nobody. The notify of the receiver does: it sweeps its rings, and the noted size fits now.
vcpu 1
recv 1 96
expect msg 2 9 0 16 ..
notify
expect 0

# The same call again, with the arguments that still stand in memory.
vcpu 2
await 1
expect signal
op 3 0x20 0x30 1 0
expect 16
