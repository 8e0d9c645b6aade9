/* A host in C: the stream's calls on the rows of document 01's "Reels by hand", fed whole and cut, with rounds at each edge, on areas
 * of every length, on pieces from every start bit on, and on every refusal. What it writes is compared with the lines that expected.py
 * makes; lines.h says what stands in them. */
#include "by_hand.h"
#include "areas.h"
#include "telling.h"
#include "pieces.h"
#include "figures.h"

int main(void)
{
    begin_rows();
    whole_rows();
    cut_rows();
    closed_rows();
    rounds_edges();
    opens();
    all_lengths();
    unsound_heads();
    other_limits();
    altered_levels();
    sound_areas();
    ended_areas();
    short_logs();
    told_edges();
    told_longest();
    most_nodes();
    long_stream();
    message_cut();
    start_edges();
    ordered_refusals();
    refused_closes();
    fed_between();
    longest_figure();
    return bad != 0;
}
