# Which refusal comes first. Each comment says what Xen 4.17 answers to the same call. Run it with `argo_run serial 0`.
argo 1
domain 1 pages 1
vcpu 1
# No such command, and an argument of more than 32 bits. Xen: EINVAL, since it looks at A3 and A4 before all else.
op 9 0 0 0 0x100000000
expect -EOPNOTSUPP
# A command of more than 32 bits. Xen cuts it to 32, so that this is a notify: 0.
op 0x100000004 0 0 0 0
expect -EOPNOTSUPP
# register_ring on 4,097 pages, and its structure is absent. Xen: EINVAL, the count first.
op 1 0x10000 0x10 4097 0
expect -EFAULT
# register_ring for a domain that is not there, and its page list is absent. Xen: ESRCH, the page list last.
register_ring at=0 aport=5 partner_id=7 len=48
op 1 0 0x10000 1 0
expect -EFAULT
# Two page numbers: the first is none of the caller's pages, and the second is past its memory. Xen: EINVAL, one number after another.
register_ring at=0 aport=5 partner_id=1 len=4096
page_list at=0xff8 pages=99
op 1 0 0xff8 2 0
expect -EFAULT
# sendv with nine buffers, and its addresses are absent. Xen: EFAULT.
op 3 0x10000 0 9 0
expect -EINVAL
# sendv with a pad that is not 0, and its buffers are absent. Xen: EFAULT.
send_addr at=0x20 src_aport=9 src_domain_id=1 dst_aport=5 dst_domain_id=1 dst_pad=1
op 3 0x20 0x10000 1 0
expect -EINVAL
# sendv from another domain, and its buffers are absent. Xen: EFAULT.
send_addr at=0x20 src_aport=9 src_domain_id=2 dst_aport=5 dst_domain_id=1
op 3 0x20 0x10000 1 0
expect -EPERM
