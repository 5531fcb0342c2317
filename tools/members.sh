# The members of the library's archive: the crates that export a function to C, each a static library over the crate
# that it is named after. Each is compiled by itself, so that what several of them call is inlined into each;
# `host_table_c` has the reader of tables alone. To be sourced.
members="host_table_c host_plain_c host_text_c host_file_c host_file_text_c host_blocks_c host_profile_c host_night_c
    host_detab_c"
