# A ring that is registered anew still counts once. Run it with `argo_run serial 0`.
argo 1
domain 1 pages 3
domain 2 pages 1
vcpu 1
ring at=0 port=5 partner=2 len=48 pages=1
expect 0
repeat 127 op 1 0 0x10 1 0
expect 0
# Xen 4.17 has counted 128 rings by now. So it answers ENOSPC to each registration: to this one, which asks to fail where the ring stands,
op 1 0 0x10 1 FAIL_EXIST
expect -EEXIST
# and to a second ring.
ring at=0 port=6 partner=2 len=48 pages=2
expect 0
