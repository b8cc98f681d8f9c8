# Wildcard rings, a domain with Argo off, and a domain that is gone. Run it with `argo_run serial 0`.
argo 1
domain 1 pages 2
domain 2 pages 1
domain 3 pages 1 off
# Every domain may register a wildcard ring. Xen 4.17: EPERM, unless it was started with mac-permissive.
vcpu 1
ring at=0 port=5 partner=any len=48 pages=1
expect 0
# A domain that is off. Xen 4.17 answers EOPNOTSUPP to every command where Argo is off for all, and ENODEV where a domain has no Argo part.
vcpu 3
notify
expect -ENODEV
op 9 0 0 0 0
expect -EOPNOTSUPP
# A send to a domain that was destroyed. Xen 4.17: ECONNREFUSED as long as it is in the list of domains, and ESRCH from then on.
control
destroy 2
vcpu 1
send from=9 to=2:5 size=0
expect -ESRCH
