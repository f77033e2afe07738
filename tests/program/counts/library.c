/* A library of maps that tells what it was given. */
struct map {
    unsigned int kind, key_size, value_size, entries;
    unsigned long long room[6];
};

void *bpf_map_lookup_elem(struct map *map, const void *key)
{
    return (void *)(map->kind * 1000000ull + map->key_size * 10000ull + map->value_size * 100ull + map->entries);
}
