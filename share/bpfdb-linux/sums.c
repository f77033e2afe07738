/* Checksums of the internet protocols: sums of words of 16 bits with the carry added, their bits turned. */
enum { FIELD = 0xf, PSEUDO = 1 << 4, SPARE_ZERO = 1 << 5, EVEN_OF_ZERO = 1 << 6, OF_IPV6 = 1 << 7, MOST_DIFFERENCE = 512 };

INLINE u32 folded_32(u64 sum)
{
	sum = (sum & 0xffffffff) + (sum >> 32);
	return (sum & 0xffffffff) + (sum >> 32);
}

INLINE u16 folded_16(u32 sum)
{
	sum = (sum & 0xffff) + (sum >> 16);
	return (sum & 0xffff) + (sum >> 16);
}

/* A checksum after a field changed from one value to another; of a field of no size `to` is the difference. (Its bits
   are turned as 32 of them: so Linux has 0 where 0xffff would say the same.) */
INLINE int changed_sum(u16 *sum, u64 from, u64 to, u64 size)
{
	u32 unturned = ~(u32)*sum;

	if (size == 0 && !from)
		*sum = ~folded_16(folded_32((u64)unturned + (u32)to));
	else if (size == 2)
		*sum = ~folded_16((u16)unturned + (u32)(u16)~from + (u16)to);
	else if (size == 4)
		*sum = ~folded_16(folded_32((u64)unturned + (u32)~from + (u32)to));
	else
		return 0;
	return 1;
}

HELPER long bpf_l3_csum_replace(struct packet *p, u32 place, u64 from, u64 to, u64 flags)
{
	u16 *sum = (u16 *)bytes_at(p, place, sizeof(u16));

	if (flags & ~(u64)FIELD)
		return -EINVAL;
	if (!sum || place % 2)
		return -EFAULT;
	return changed_sum(sum, from, to, flags & FIELD) ? 0 : -EINVAL;
}

HELPER long bpf_l4_csum_replace(struct packet *p, u32 place, u64 from, u64 to, u64 flags)
{
	u16 *sum = (u16 *)bytes_at(p, place, sizeof(u16));

	if (flags & ~(u64)(FIELD | PSEUDO | SPARE_ZERO | EVEN_OF_ZERO | OF_IPV6))
		return -EINVAL;
	if (!sum || place % 2)
		return -EFAULT;
	/* (of UDP, where no checksum is 0) */
	if (flags & SPARE_ZERO && !(flags & EVEN_OF_ZERO) && !*sum)
		return 0;
	/* (a field of two bytes is one of four there) */
	if ((flags & FIELD) == 2 ? !changed_sum(sum, (u16)from, (u16)to, 4) : !changed_sum(sum, from, to, flags & FIELD))
		return -EINVAL;
	if (flags & SPARE_ZERO && !*sum)
		*sum = 0xffff;
	return 0;
}

/* What a checksum changes by where bytes are replaced: a sum of 32 bits, of which Linux gives the same or one that folds
   to the same. */
HELPER s64 bpf_csum_diff(const u32 *from, u32 from_size, const u32 *to, u32 to_size, u32 seed)
{
	u64 sum = seed;

	if ((from_size | to_size) % 4 || from_size + to_size > MOST_DIFFERENCE)
		return -EINVAL;
	for (u32 i = 0; i < from_size / 4; i++)
		sum += (u32)~from[i];
	for (u32 i = 0; i < to_size / 4; i++)
		sum += to[i];
	return folded_32(sum);
}
