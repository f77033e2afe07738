/* A clock that stands still, and a map that knows nothing. */
void *bpf_map_lookup_elem(void *map, const void *key)
{
	return 0;
}

long bpf_map_update_elem(void *map, const void *key, const void *value, unsigned long flags)
{
	return *(const unsigned *)key;
}
