# shellcheck shell=sh disable=SC2034
# For the scripts that link the archive; they stand in the root of the repository when they read this.
# lib: the archive (PLAITCRUMB_LIB, or build/libplaitcrumb.a). It must have every function of the header.
# out: where programs are built.
lib=${PLAITCRUMB_LIB:-build/libplaitcrumb.a}
out=build/tests
for export in plaitcrumb_check_book plaitcrumb_check_finding plaitcrumb_check_table plaitcrumb_check_table_in \
    plaitcrumb_name plaitcrumb_name_in; do
    if ! nm "$lib" 2>/dev/null | grep -q " T $export\$"; then
        echo "no archive with $export at $lib" >&2
        exit 2
    fi
done
mkdir -p "$out"
