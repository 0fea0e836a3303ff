"""The front end's parts. They are read from the bottom: names, streams, slots, packets, raw_pack, delta, at_once, git_pack, ends, refs,
kept_pack, objects, shallow, fetch, push, slices, talk, keys, admin_files, record, after_push, settings, shell, web."""
