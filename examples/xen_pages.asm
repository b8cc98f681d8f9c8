# A page is in one ring at most, and once there. Xen 4.17 lets a page be in two rings, or twice in one: 0 each time. Run it with
# `argo_run serial 0`.
argo 1
domain 1 pages 3
domain 2 pages 1
vcpu 1
ring at=0 port=5 partner=2 len=48 pages=1
expect 0
ring at=0 port=6 partner=2 len=48 pages=1
expect -EINVAL
ring at=0 port=7 partner=2 len=4096 pages=2,2
expect -EINVAL
