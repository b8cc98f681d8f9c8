# Two virtual CPUs of one domain send into a ring that has room for one body. Which of them gets it is up to the schedule, so try many
# seeds. The reports beside this script are of `argo_run serial 0`, `serial 1`, `serial 2` and `serial 5`. Look at the replies of sections
# 1 and 2; what is expected here is of `serial 0`.
argo 1
domain 1 pages 2
domain 2 pages 2

# Section 0: the receiver waits for a message, takes it, and tells who waits for room.
vcpu 1
ring at=0 port=5 partner=2 len=48 pages=1
expect 0
await 1000
recv 1 48
notify

# Sections 1 and 2: each CPU keeps its structures in a page of its own. The first wait is a delay, so that the ring stands under other
# seeds than 0 too. Then one is told 16, and the other -11 (EAGAIN), or -111 (ECONNREFUSED) where the ring does not stand yet.
vcpu 2
await 60
send from=1 to=1:5 body="from one........" at=0x20 type=1
expect 16
# Domain 2 has one flag for both CPUs. The CPU that looks first clears it, and it need not be the one that waits.
await 1000
send from=1 to=1:5 body="one again......." at=0x20 type=2

vcpu 2
await 60
send from=2 to=1:5 body="from two........" at=0x1020 type=3
expect -EAGAIN
await 1000
send from=2 to=1:5 body="two again......." at=0x1020 type=4
