/* The header in C++: it compiles with all warnings, and its calls are linked by their names in C. */
#include <luffapricot.h>
#include <string>

static int make(void *context, const void *key, size_t key_len, luffa_made *made) {
    std::string *value = static_cast<std::string *>(context);
    value->assign(static_cast<const char *>(key), key_len);
    made->value = value->data();
    made->value_len = value->size();
    return 0;
}

int main() {
    luffa_config config = luffa_config_default(LUFFA_SIEVE);
    config.capacity = 10;
    luffa_cache *cache = nullptr;
    luffa_entry entry = {};
    std::string key = "key", value;
    if (luffa_create(&config, &cache) != LUFFA_OK)
        return 1;
    luffa_status status = luffa_get_or_insert(cache, 0, key.data(), key.size(), make, &value, &entry);
    bool is_well = status == LUFFA_OK && std::string(static_cast<const char *>(entry.value), entry.value_len) == key;
    luffa_release(&entry);
    luffa_destroy(cache);
    return is_well ? 0 : 1;
}
