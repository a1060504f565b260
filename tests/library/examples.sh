# What each program of examples prints that is run without words, its line ends written as ;. To be sourced by bash.
declare -A prints=(
    [expand]='1 3 2;'
    [prepared_family]='1 3 2;3 0 1;'
    [which_rows]='row 2: 6 shares 3 with 15;row 4: zero;'
    [two_channels]='6 -18 9 -1;-6 18 -9 1;'
    [even_first]='1 95 8 0 0;1 0 95 0 8;'
)
