/*
 * planted.c - wrong versions of the library, which the selftest must catch.
 *
 * The real calls, renamed to real_open and so on, and around them one mistake:
 * the one whose name is in the environment variable PLANT, or none for "none".
 * host/run_tests reads the lists below and tries each plant with the test of
 * the selftest that is meant for it.
 *
 * The feed has a second version here, in C over real_open and real_step, the
 * balance has one too, the join has one over real_ask and real_step, and so
 * have opening, step and question, over the real ones with no crosslocks on the
 * desk, with places for mistakes; the plants of the second to the fifth list
 * use them, and "right" uses all of them, without a mistake.
 */
#include <stdlib.h>
#include <string.h>

#include "plungerowl.h"

/* Plant, the test that must catch it, and how: the selftest finds something
 * wrong, or is killed as it lets the library read what must not be read. */
#define PLANTS(X) \
    X(fit_k_65, unfit_heads, wrong) \
    X(fit_closed_255, unfit_heads, wrong) \
    X(fit_state_9, unfit_heads, wrong) \
    X(fit_depth_over, unfit_held, wrong) \
    X(fit_class_over, unfit_held, wrong) \
    X(fit_mode_3, unfit_held, wrong) \
    X(fit_mode_3_of_a_try, unfit_held, wrong) \
    X(fit_unused_byte, unfit_held, wrong) \
    X(fit_soft_in_6, unfit_frames, wrong) \
    X(fit_hard_in_5, unfit_frames, wrong) \
    X(fit_mark_of_63, unfit_marks, wrong) \
    X(fit_soft_unsafe_e, unfit_marks, wrong) \
    X(fit_soft_unsafe_s, unfit_marks, wrong) \
    X(fit_sheet_16, unfit_sheet, wrong) \
    X(fit_first_origin, unfit_origins, wrong) \
    X(fit_last_origin, unfit_origins, wrong) \
    X(fit_origin_of_frame_1, unfit_origins, wrong) \
    X(fit_origin_at_depth, unfit_origins, wrong) \
    X(fit_no_origins, unfit_origins, wrong) \
    X(fit_no_origins_asked, unfit_origins, wrong) \
    X(fit_try_refused, unfit_origins, wrong) \
    X(fit_number_0_of_first, unfit_numbers, wrong) \
    X(fit_number_0_of_last, unfit_numbers, wrong) \
    X(fit_number_0_with_sr, unfit_numbers, wrong) \
    X(fit_number_0_but_of_first, unfit_last_pair, wrong) \
    X(fit_number_without_kinds, unfit_numbers, wrong) \
    X(fit_high_number_without_kinds, unfit_numbers, wrong) \
    X(fit_tie_kept, unfit_numbers, wrong) \
    X(fit_tie_kept_by_one, unfit_numbers, wrong) \
    X(fit_tie_kept_for_count_0, any_count, wrong) \
    X(fit_tie_kept_but_for_count_0, any_count, wrong) \
    X(fit_tie_kept_by_high_byte, unfit_numbers, wrong) \
    X(fit_tie_kept_with_high_count, any_count, wrong) \
    X(fit_tie_kept_for_last_pair, unfit_last_pair, wrong) \
    X(fit_tie_kept_for_joined, join_step_on, wrong) \
    X(fit_tie_kept_in_steps, above_count, wrong) \
    X(fit_tie_kept_asked, any_count, wrong) \
    X(fit_tie_kept_asked_of_joined, join_step_on, wrong) \
    X(fit_highest_number_refused, unfit_numbers, wrong) \
    X(fit_number_of_last_pair, unfit_last_pair, wrong) \
    X(fit_numbers_not_tested, unfit_numbers, wrong) \
    X(fit_numbers_not_tested_asked, unfit_numbers, wrong) \
    X(fit_number_as_count_refused, unfit_numbers, wrong) \
    X(fit_number_1_refused, unfit_numbers, wrong) \
    X(fit_number_low_byte_0_refused, unfit_numbers, wrong) \
    X(fit_number_high_byte_first, unfit_numbers, wrong) \
    X(fit_number_signed, any_count, wrong) \
    X(fit_number_behind_last_pair, unfit_last_pair, wrong) \
    X(fit_kinds_behind_last_pair, unfit_last_pair, wrong) \
    X(fit_numbers_of_64_classes, seen_past, wrong) \
    X(fit_count_without_numbers_refused, any_count, wrong) \
    X(fit_number_as_count_refused_asked, unfit_numbers, wrong) \
    X(depth_8_at_20, depth_steps, wrong) \
    X(depth_8_at_32, depth_steps, wrong) \
    X(depth_8_at_47, depth_limit, wrong) \
    X(depth_8_at_20_in_handlers, depth_steps, wrong) \
    X(depth_8_at_20_for_tries, depth_steps, wrong) \
    X(depth_8_by_core, depth_three, wrong) \
    X(depth_8_at_49, depth_limit, wrong) \
    X(depth_8_at_49_for_tries, depth_limit, wrong) \
    X(depth_8_at_49_in_handlers, depth_limit, wrong) \
    X(depth_8_at_49_of_last_frame, depth_limit, wrong) \
    X(depth_8_before_4, depth_limit, wrong) \
    X(depth_9_before_8, depth_limit, wrong) \
    X(fit_depth_limit_20, depth_steps, wrong) \
    X(fit_depth_limit_32, depth_steps, wrong) \
    X(fit_depth_limit_47, depth_limit, wrong) \
    X(fit_depth_limit_20_asked, unfit_held, wrong) \
    X(fit_depth_limit_47_asked, unfit_held, wrong) \
    X(fit_depth_limit_49, unfit_held, wrong) \
    X(fit_depth_limit_49_asked, unfit_held, wrong) \
    X(fit_depth_limit_64, unfit_held, wrong) \
    X(fit_held_from_20, unfit_held, wrong) \
    X(fit_held_from_32, unfit_held, wrong) \
    X(fit_held_at_47, unfit_held, wrong) \
    X(fit_unused_from_20, unfit_held, wrong) \
    X(fit_unused_from_32, unfit_held, wrong) \
    X(fit_unused_at_47, unfit_held, wrong) \
    X(fit_origins_from_20, unfit_origins, wrong) \
    X(fit_origins_from_32, unfit_origins, wrong) \
    X(fit_origins_at_47, unfit_origins, wrong) \
    X(origin_stride_20, origin_bytes, wrong) \
    X(origin_stride_40, origin_bytes, wrong) \
    X(origin_stride_47, origin_bytes, wrong) \
    X(origin_stride_49, origin_bytes, wrong) \
    X(origin_stride_64, origin_bytes, wrong) \
    X(origin_of_32_bits, origin_bytes, wrong) \
    X(origin_lost_from_20, origin_acquires, wrong) \
    X(origin_lost_from_32, origin_bytes, wrong) \
    X(origin_clears_next_frame, origin_edges, wrong) \
    X(origin_clears_frame_before, origin_edges, wrong) \
    X(held_stride_20, origin_bytes, wrong) \
    X(held_stride_47, depth_limit, wrong) \
    X(held_stride_49, depth_steps, wrong) \
    X(draws_from_first_20, depth_faults, wrong) \
    X(draws_from_first_32, depth_faults, wrong) \
    X(draws_from_first_46, depth_faults, wrong) \
    X(marks_first_20, depth_marks, wrong) \
    X(marks_first_32, depth_marks, wrong) \
    X(marks_first_47, depth_marks, wrong) \
    X(newest_of_first_20, depth_newest, wrong) \
    X(newest_of_first_32, depth_newest, wrong) \
    X(newest_of_first_47, depth_newest, wrong) \
    X(remove_moves_first_20, depth_newest, wrong) \
    X(remove_moves_first_32, depth_newest, wrong) \
    X(remove_moves_first_46, depth_random, wrong) \
    X(origins_move_first_20, origin_moves, wrong) \
    X(origins_move_first_32, origin_moves, wrong) \
    X(origins_move_first_40, origin_edges, wrong) \
    X(origins_shift_32_bits, origin_moves, wrong) \
    X(origins_move_next_frame_in, origin_edges, wrong) \
    X(count_at_638, count, wrong) \
    X(count_at_end_of_buffer, count, wrong) \
    X(old_desk_read, old_desks, wrong) \
    X(old_desk_read_asked, old_desks, wrong) \
    X(open_desk_of_578, old_lengths, wrong) \
    X(open_desk_of_638, old_lengths, wrong) \
    X(open_desk_of_642, old_lengths, wrong) \
    X(step_desk_of_578, old_lengths, wrong) \
    X(step_desk_of_638, old_lengths, wrong) \
    X(step_desk_of_642, old_lengths, wrong) \
    X(ask_desk_of_642, old_lengths, wrong) \
    X(ask_desk_short_by_one, old_lengths, wrong) \
    X(open_k_cut, open_refused, wrong) \
    X(open_desk_short_by_one, open_refused, wrong) \
    X(open_desk_without_origins, open_refused, wrong) \
    X(open_desk_without_count, open_refused, wrong) \
    X(open_sheet_short_by_one, open_refused, wrong) \
    X(open_seen_short_by_one, open_refused, wrong) \
    X(open_seen_of_k_x_k, open_refused, wrong) \
    X(open_seen_not_tested, open_refused, wrong) \
    X(open_writes_before_desk, open_accepted, wrong) \
    X(open_writes_behind_sheet, open_accepted, wrong) \
    X(open_writes_behind_desk, open_accepted, wrong) \
    X(open_leaves_origins, open_accepted, wrong) \
    X(open_leaves_last_byte, open_accepted, wrong) \
    X(open_leaves_count, open_accepted, wrong) \
    X(open_counts_itself, open_accepted, wrong) \
    X(open_leaves_seen, open_accepted, wrong) \
    X(open_leaves_seen_of_used, reopen, wrong) \
    X(open_leaves_last_number, open_accepted, wrong) \
    X(open_zeroes_k_x_k_of_seen, open_accepted, wrong) \
    X(open_zeroes_all_of_seen, open_accepted, wrong) \
    X(open_writes_behind_seen, open_accepted, wrong) \
    X(open_writes_before_seen, open_accepted, wrong) \
    X(open_refused_writes, open_refused, wrong) \
    X(open_refused_writes_seen, open_refused, wrong) \
    X(step_reads_before_desk, p2, killed) \
    X(step_reads_behind_desk, p2, killed) \
    X(step_reads_behind_sheet, p2, killed) \
    X(step_reads_behind_seen, p2, killed) \
    X(step_reads_before_seen, p2, killed) \
    X(step_reads_behind_slip, p2, killed) \
    X(step_reads_behind_record, p2, killed) \
    X(step_reads_before_record, p2, killed) \
    X(step_writes_record, p2, wrong) \
    X(step_writes_slip, p2, wrong) \
    X(step_writes_slip_tail, p2, wrong) \
    X(step_writes_behind_desk, origin_last, wrong) \
    X(step_desk_without_origins, unfit_lengths, wrong) \
    X(step_desk_short_by_one, unfit_lengths, wrong) \
    X(step_desk_without_count, unfit_lengths, wrong) \
    X(step_seen_short_by_one, unfit_lengths, wrong) \
    X(step_seen_of_k_x_k, unfit_lengths, wrong) \
    X(step_slip_short_by_one, unfit_lengths, wrong) \
    X(step_old_slip, unfit_lengths, wrong) \
    X(step_old_slip_of_64, old_slip, wrong) \
    X(step_writes_behind_seen, seen_past, wrong) \
    X(step_writes_seen_tail, seen_places, wrong) \
    X(refused_7_writes, refusal_7, wrong) \
    X(exit_with_tries_held, refusal_7, wrong) \
    X(refused_8_writes, refusal_8, wrong) \
    X(refused_10_before_11, closed, wrong) \
    X(refused_3_before_10, closed, wrong) \
    X(mode_3_refused, try_held_byte, wrong) \
    X(mode_5_refused, try_held_byte, wrong) \
    X(mode_6_accepted, refusal_3, wrong) \
    X(mode_255_accepted, refusal_3, wrong) \
    X(mode_6_after_class, order, wrong) \
    X(try_of_class_k_as_3, refusal_4, wrong) \
    X(try_of_class_k_as_8, refusal_8, wrong) \
    X(try_at_full_depth_as_3, refusal_8, wrong) \
    X(event_with_a_mode, refusal_3, wrong) \
    X(hard_on_with_a_mode, order, wrong) \
    X(try_not_counted, try_full, wrong) \
    X(try_held_as_mode_3, try_held_byte, wrong) \
    X(try_held_as_exclusive, try_held_byte, wrong) \
    X(try_reads_exchanged, try_held_byte, wrong) \
    X(origin_never_set, origin_acquires, wrong) \
    X(origin_always_set, origin_acquires, wrong) \
    X(origin_highest_bit_first, origin_bytes, wrong) \
    X(origin_by_place_first, origin_bytes, wrong) \
    X(origin_clears_its_byte, origin_acquires, wrong) \
    X(release_moves_no_bits, origin_releases, wrong) \
    X(release_moves_next_frame_in, origin_releases, wrong) \
    X(release_moves_whole_region, origin_releases, wrong) \
    X(release_leaves_last_bit, origin_releases, wrong) \
    X(release_loses_bit_between_bytes, origin_releases, wrong) \
    X(release_moves_bits_below, origin_releases, wrong) \
    X(release_of_no_try_moves_no_bits, origin_releases, wrong) \
    X(release_takes_oldest, try_release, wrong) \
    X(release_takes_no_try_first, try_release, wrong) \
    X(release_takes_try_first, try_release, wrong) \
    X(release_newest_that_fits, release_pairs, wrong) \
    X(release_newest_that_fits_in_table, release_table, wrong) \
    X(release_newest_that_fits_in_deep, depth_newest, wrong) \
    X(release_newest_that_fits_at_random, depth_random, wrong) \
    X(release_newest_in_its_mode, release_pairs, wrong) \
    X(release_newest_of_its_origin, release_pairs, wrong) \
    X(release_all_must_fit, release_pairs, wrong) \
    X(release_oldest_that_fits, release_pairs, wrong) \
    X(release_any_that_fits, release_pairs, wrong) \
    X(release_oldest_compared, release_pairs, wrong) \
    X(release_oldest_compared_newest_goes, release_pairs, wrong) \
    X(release_newest_compared_oldest_fit_goes, release_order, wrong) \
    X(release_of_top_only, release_classes, wrong) \
    X(release_by_mode_of_top, release_classes, wrong) \
    X(release_compared_top_goes, release_classes, wrong) \
    X(release_by_any_lock_of_frame, release_classes, wrong) \
    X(release_of_any_class, release_classes, wrong) \
    X(release_fits_in_any_frame, release_frames, wrong) \
    X(release_fits_on_any_core, release_frames, wrong) \
    X(release_looks_in_task, release_frames, wrong) \
    X(release_looks_below, release_frames, wrong) \
    X(release_looks_on_core_before, release_frames, wrong) \
    X(release_not_compared, release_modes, wrong) \
    X(release_not_compared_in_table, release_table, wrong) \
    X(release_by_mode_only, release_modes, wrong) \
    X(release_by_origin_only, release_modes, wrong) \
    X(release_by_held_byte, release_modes, wrong) \
    X(release_mode_0_fits_all, release_modes, wrong) \
    X(release_mode_0_fits_tries, release_modes, wrong) \
    X(release_mode_0_fits_reads, release_table, wrong) \
    X(release_reads_alike, release_modes, wrong) \
    X(release_tried_reads_alike, release_modes, wrong) \
    X(release_read_fits_recursive, release_modes, wrong) \
    X(release_recursive_fits_read, release_modes, wrong) \
    X(release_reads_fit_write, release_modes, wrong) \
    X(release_try_fits_in_any_mode, release_modes, wrong) \
    X(release_without_try_fits_try, release_modes, wrong) \
    X(release_by_try_fits_all, release_modes, wrong) \
    X(release_mode_at_most, release_modes, wrong) \
    X(release_mode_at_least, release_modes, wrong) \
    X(release_mode_of_1_bit, release_modes, wrong) \
    X(release_mode_of_2_bits, release_modes, wrong) \
    X(release_origin_turned, release_modes, wrong) \
    X(release_tries_turned, release_modes, wrong) \
    X(release_mode_and_origin_apart, release_pairs, wrong) \
    X(release_origin_of_place_above, release_pairs, wrong) \
    X(release_origin_of_place_below, release_pairs, wrong) \
    X(release_origin_of_first_place, release_pairs, wrong) \
    X(release_origin_of_top, release_classes, wrong) \
    X(release_origin_of_oldest, release_pairs, wrong) \
    X(release_origin_of_its_byte, release_pairs, wrong) \
    X(release_origin_of_frame_0, release_modes, wrong) \
    X(release_origin_of_next_frame, release_modes, wrong) \
    X(release_origin_of_task, release_frames, wrong) \
    X(release_origin_stride_20, release_modes, wrong) \
    X(release_origin_highest_bit_first, release_modes, wrong) \
    X(release_origin_of_32_bits, release_places, wrong) \
    X(release_mode_of_place_above, release_classes, wrong) \
    X(release_mode_of_place_below, release_pairs, wrong) \
    X(release_mode_of_oldest, release_pairs, wrong) \
    X(release_mode_of_frame_0, release_modes, wrong) \
    X(misfit_passes_in_handlers, release_modes, wrong) \
    X(misfit_passes_in_hard, release_modes, wrong) \
    X(misfit_passes_on_core_7, release_modes, wrong) \
    X(misfit_passes_in_state_1, acquire_marks, wrong) \
    X(misfit_passes_in_state_7, acquire_marks, wrong) \
    X(misfit_passes_of_one_class, release_modes, wrong) \
    X(misfit_passes_from_20, release_from_top, wrong) \
    X(misfit_passes_at_47, release_places, wrong) \
    X(misfit_passes_at_0, release_places, wrong) \
    X(misfit_passes_of_two, release_pairs, wrong) \
    X(misfit_passes_of_one, release_modes, wrong) \
    X(misfit_passes_in_full_frame, release_from_top, wrong) \
    X(misfit_passes_below_others, release_classes, wrong) \
    X(misfit_passes_of_class_0, release_classes, wrong) \
    X(misfit_passes_of_class_63, release_classes, wrong) \
    X(misfit_passes_with_fault, release_fault, wrong) \
    X(release_of_try_as_5, try_release, wrong) \
    X(release_of_read_as_5, release_modes, wrong) \
    X(release_of_newer_as_5, release_pairs, wrong) \
    X(release_misses_place_0, release_modes, wrong) \
    X(release_misses_place_47, release_places, wrong) \
    X(release_in_full_frame_as_5, release_places, wrong) \
    X(release_in_handler_as_5, release_modes, wrong) \
    X(release_modes_as_3, release_modes, wrong) \
    X(release_tries_as_3, try_release, wrong) \
    X(release_mode_5_as_3, release_modes, wrong) \
    X(release_misfits_as_3_by_mode, release_modes, wrong) \
    X(release_mode_over_as_5, refusal_3, wrong) \
    X(release_mode_over_as_5_of_none, release_every_mode, wrong) \
    X(release_mode_over_of_class_k_as_4, order, wrong) \
    X(release_mode_6_accepted, refusal_3, wrong) \
    X(release_mode_255_accepted, refusal_3, wrong) \
    X(release_mode_of_3_bits, release_every_mode, wrong) \
    X(release_mode_modulo_6, refusal_3, wrong) \
    X(release_of_class_k_as_5, refusal_4, wrong) \
    X(release_of_class_k_with_mode_as_5, order, wrong) \
    X(release_of_class_k_with_mode_as_3, refusal_4, wrong) \
    X(release_class_of_6_bits, release_every_mode, wrong) \
    X(misfit_as_0, release_modes, wrong) \
    X(misfit_as_1, release_modes, wrong) \
    X(misfit_as_3, release_modes, wrong) \
    X(misfit_as_4, release_modes, wrong) \
    X(misfit_as_6, release_modes, wrong) \
    X(misfit_as_7, release_modes, wrong) \
    X(misfit_as_8, release_modes, wrong) \
    X(misfit_as_10, release_modes, wrong) \
    X(misfit_as_11, release_modes, wrong) \
    X(nine_before_misfit, count_order, wrong) \
    X(misfit_before_10, closed, wrong) \
    X(misfit_before_11, release_every_mode, wrong) \
    X(misfit_counts, count, wrong) \
    X(misfit_removes_newest, release_modes, wrong) \
    X(misfit_removes_what_fits, release_pairs, wrong) \
    X(misfit_clears_origin, release_modes, wrong) \
    X(misfit_takes_its_mode, release_modes, wrong) \
    X(misfit_takes_its_origin, release_modes, wrong) \
    X(misfit_closes, release_modes, wrong) \
    X(misfit_marks, acquire_marks, wrong) \
    X(misfit_draws, release_modes, wrong) \
    X(misfit_writes_slip, release_fault, wrong) \
    X(event_clears_origins, table_marks, wrong) \
    X(dependency_to_try, try_dependencies, wrong) \
    X(dependency_to_try_of_its_class, try_dependencies, wrong) \
    X(dependency_from_try_left_out, try_dependencies, wrong) \
    X(dependency_from_try_shared, try_dependencies, wrong) \
    X(try_safe_at_once, try_marks, wrong) \
    X(try_safe_later, try_marks, wrong) \
    X(try_safe_after_release, try_in_handlers, wrong) \
    X(try_soft_safe_in_4, try_marks, wrong) \
    X(try_hard_safe_in_8, try_marks, wrong) \
    X(try_never_unsafe, try_marks, wrong) \
    X(try_unsafe_only_at_once, try_over_hard_on, wrong) \
    X(try_not_unsafe_in_4, try_marks, wrong) \
    X(try_unsafe_as_read, try_marks, wrong) \
    X(safe_by_class, try_same_class, wrong) \
    X(safe_by_oldest_of_class, try_same_class, wrong) \
    X(safe_by_frame, try_in_handlers, wrong) \
    X(safe_by_place_above, origin_acquires, wrong) \
    X(shown_class_before_kind, shown_by_hand, wrong) \
    X(shown_class_before_kind_in_logs, shown_in_logs, wrong) \
    X(shown_class_before_source, shown_by_hand, wrong) \
    X(shown_class_before_source_in_logs, shown_in_logs, wrong) \
    X(shown_classes_first, shown_all_tried, wrong) \
    X(shown_source_before_kind, shown_by_hand, wrong) \
    X(shown_kinds_highest_first, shown_kinds, wrong) \
    X(shown_kinds_n_first, shown_kinds, wrong) \
    X(shown_kinds_s_first, shown_kinds, wrong) \
    X(shown_kinds_by_second_letter, shown_kinds, wrong) \
    X(shown_soft_before_hard, shown_sources, wrong) \
    X(shown_hard_before_hold, shown_sources, wrong) \
    X(shown_soft_first, shown_sources, wrong) \
    X(shown_joint_ignored, shown_by_hand, wrong) \
    X(shown_closing_joint_ignored, shown_by_hand, wrong) \
    X(shown_joint_to_lowest_only, shown_by_hand, wrong) \
    X(shown_longest, shown_by_hand, wrong) \
    X(shown_lowest_class_before_fewest, shown_by_hand, wrong) \
    X(shown_highest_start, shown_by_hand, wrong) \
    X(shown_by_kind_before_start, shown_by_hand, wrong) \
    X(shown_from_second_class, shown_by_hand, wrong) \
    X(shown_from_highest_class, shown_in_logs, wrong) \
    X(shown_by_parents, shown_by_hand, wrong) \
    X(shown_right_to_left, shown_by_hand, wrong) \
    X(shown_second, shown_all_tried, wrong) \
    X(shown_second_in_layers, shown_layers, wrong) \
    X(shown_second_in_logs, shown_random_logs, wrong) \
    X(shown_last, shown_by_hand, wrong) \
    X(shown_by_core, shown_by_any_record, wrong) \
    X(shown_by_class, shown_by_any_record, wrong) \
    X(shown_by_what_is_drawn, shown_by_any_record, wrong) \
    X(shown_ring_of_63, shown_ring, wrong) \
    X(shown_ring_ends_wrong, shown_ring, wrong) \
    X(shown_tie_wrong, shown_ties, wrong) \
    X(shown_late_kinds_wrong, shown_ties, wrong) \
    X(shown_numbers_compared, seen_not_compared, wrong) \
    X(shown_numbers_compared_in_logs, seen_older_not_shown, wrong) \
    X(shown_numbers_compared_at_random, shown_all_tried, wrong) \
    X(shown_numbers_before_kind, seen_not_compared, wrong) \
    X(shown_numbers_before_source, seen_not_compared, wrong) \
    X(shown_oldest_first, seen_not_compared, wrong) \
    X(shown_newest_first, seen_not_compared, wrong) \
    X(shown_earliest_cycle, seen_not_compared, wrong) \
    X(shown_clears_slip, shown_by_hand, wrong) \
    X(clash_flipped_5, clashes, wrong) \
    X(clash_flipped_6, clashes, wrong) \
    X(clash_flipped_9, clashes, wrong) \
    X(clash_flipped_10, clashes, wrong) \
    X(clash_flipped_20, clashes, wrong) \
    X(clash_flipped_84, clashes, wrong) \
    X(clash_flipped_100, clashes, wrong) \
    X(clash_flipped_152, clashes, wrong) \
    X(clash_flipped_168, clashes, wrong) \
    X(clash_flipped_255, clashes, wrong) \
    X(clash_levels_mixed, clashes, wrong) \
    X(clash_classes_mixed, clashes_of_two, wrong) \
    X(clash_joint_ignored, clashes, wrong) \
    X(clash_of_class_0_only, clashes, wrong) \
    X(clash_of_last_class_missed, clashes, wrong) \
    X(clash_of_highest_class, clashes_of_two, wrong) \
    X(clash_soft_before_hard, clashes, wrong) \
    X(clash_level_before_kind, clashes, wrong) \
    X(clash_before_lock, clashes_and_locks, wrong) \
    X(clash_before_lower_lock, shown_by_hand, wrong) \
    X(lock_of_one_class_missed, clashes_and_locks, wrong) \
    X(count_not_at_fault, count, wrong) \
    X(count_acquires_only, count, wrong) \
    X(count_no_releases, count, wrong) \
    X(count_no_tries, count, wrong) \
    X(count_no_events, count, wrong) \
    X(count_only_what_draws, count, wrong) \
    X(count_only_new_dependencies, count, wrong) \
    X(count_only_what_changes, count, wrong) \
    X(count_by_held_locks, count, wrong) \
    X(count_refused_3, count, wrong) \
    X(count_refused_4, count, wrong) \
    X(count_refused_5, count, wrong) \
    X(count_refused_6, count, wrong) \
    X(count_refused_7, count, wrong) \
    X(count_refused_8, count, wrong) \
    X(count_refused_10, count, wrong) \
    X(count_refused_11, count, wrong) \
    X(count_of_8_bits, count_carries, wrong) \
    X(count_of_16_bits, count_carries, wrong) \
    X(count_of_24_bits, count_carries, wrong) \
    X(count_of_31_bits, count_carries, wrong) \
    X(count_carry_lost, count_carries, wrong) \
    X(count_from_highest_number, above_count, wrong) \
    X(count_from_highest_number_of_joined, join_step_on, wrong) \
    X(count_high_byte_first, count_carries, wrong) \
    X(full_count_wraps, count_full, wrong) \
    X(full_count_stays, count_full, wrong) \
    X(full_count_one_early, count_full, wrong) \
    X(full_count_of_16_bits, count_carries, wrong) \
    X(full_count_of_31_bits, count_carries, wrong) \
    X(full_count_not_for_events, count_full, wrong) \
    X(full_count_not_for_releases, count_full, wrong) \
    X(full_count_not_for_tries, count_full, wrong) \
    X(full_count_only_for_dependencies, count_full, wrong) \
    X(full_count_not_for_faults, count_full_fault, wrong) \
    X(full_count_closes, count_full, wrong) \
    X(full_count_writes_slip, count_full_fault, wrong) \
    X(full_count_draws, count_full, wrong) \
    X(full_count_as_8, count_full, wrong) \
    X(full_count_as_10, count_full, wrong) \
    X(full_count_as_11, count_full, wrong) \
    X(nine_before_3, count_order, wrong) \
    X(nine_before_4, count_order, wrong) \
    X(nine_before_5, count_order, wrong) \
    X(nine_before_6, count_order, wrong) \
    X(nine_before_7, count_order, wrong) \
    X(nine_before_8, count_order, wrong) \
    X(nine_before_10, count_order, wrong) \
    X(nine_before_11, count_order, wrong) \
    X(seen_latest, seen_later_kind, wrong) \
    X(seen_by_latest_kind, seen_later_kind, wrong) \
    X(seen_as_before_the_record, p2, wrong) \
    X(seen_of_fault_as_before, seen_of_the_fault, wrong) \
    X(seen_transposed, seen_places, wrong) \
    X(seen_high_byte_first, seen_places, wrong) \
    X(seen_in_rows_of_64, seen_places, wrong) \
    X(seen_number_of_3_bytes, count_carries, wrong) \
    X(seen_number_of_2_bytes, seen_long, wrong) \
    X(seen_number_of_1_byte, seen_long, wrong) \
    X(seen_from_newest_only, seen_by_one, wrong) \
    X(seen_from_oldest_only, seen_by_one, wrong) \
    X(seen_own_class_left_out, seen_by_one, wrong) \
    X(seen_back_too, seen_by_one, wrong) \
    X(seen_from_other_frames, seen_by_one, wrong) \
    X(seen_from_tries_left_out, seen_by_one, wrong) \
    X(seen_to_tries, seen_try, wrong) \
    X(seen_counts_refused, seen_refused, wrong) \
    X(seen_not_at_fault, seen_of_the_fault, wrong) \
    X(seen_of_marks, seen_by_marks, wrong) \
    X(seen_as_count_renewed, seen_from_elsewhere, wrong) \
    X(seen_above_count_renewed, above_count, wrong) \
    X(seen_above_count_renewed_of_joined, join_step_on, wrong) \
    X(seen_from_highest_number, above_count, wrong) \
    X(seen_from_highest_number_of_joined, join_step_on, wrong) \
    X(slip_number_of_marks, seen_by_marks, wrong) \
    X(slip_number_of_hard_marks, seen_by_marks, wrong) \
    X(slip_number_of_soft_marks, seen_by_marks, wrong) \
    X(slip_number_of_own_marks, seen_by_marks, wrong) \
    X(slip_number_left_out, p2, wrong) \
    X(slip_number_not_written, p2, wrong) \
    X(slip_number_of_marks_not_written, seen_by_marks, wrong) \
    X(slip_number_high_byte_first, p2, wrong) \
    X(slip_number_of_3_bytes, count_carries, wrong) \
    X(slip_number_of_2_bytes, seen_long, wrong) \
    X(slip_number_of_1_byte, seen_long, wrong) \
    X(slip_number_transposed, p2, wrong) \
    X(slip_number_of_next_entry, p2, wrong) \
    X(slip_number_of_the_fault, p2, wrong) \
    X(slip_number_before_the_fault, seen_of_the_fault, wrong) \
    X(slip_number_of_first_only, p2, wrong) \
    X(slip_number_of_last_left_out, full_slip, wrong) \
    X(slip_number_0_of_later_kind, seen_later_kind, wrong) \
    X(slip_number_above_count_left_out, above_count, wrong) \
    X(slip_number_at_most_count, join_step_on, wrong) \
    X(slip_number_before_source, p2, wrong) \
    X(slip_number_before_class, p2, wrong) \
    X(slip_entries_of_3, p2, wrong) \
    X(ask_class_cut, ask_refused, wrong) \
    X(ask_leaves_word, ask_refused, wrong) \
    X(ask_writes_behind_count, ask_refused, wrong) \
    X(ask_refuses_closed, closed, wrong) \
    X(ask_refuses_full_count, count_full, wrong) \
    X(ask_reads_behind_sheet, short_buffers, killed) \
    X(ask_reads_behind_seen, short_buffers, killed) \
    X(ask_writes_seen, p2, wrong) \
    X(ask_seen_short_by_one, unfit_lengths, wrong) \
    X(ask_seen_after_class, unfit_lengths, wrong) \
    X(ask_desk_without_count, unfit_lengths, wrong) \
    X(ask_desk_without_origins, unfit_lengths, wrong) \
    X(merge_enter_while_another_in_hard, merge_random, wrong) \
    X(merge_events_by_state_of_core_0, merge_random, wrong) \
    X(merge_exit_while_another_holds, merge_random, wrong) \
    X(merge_release_while_another_holds, merge_random, wrong) \
    X(merge_acquire_while_another_holds, merge_by_hand, wrong) \
    X(merge_acquire_while_another_holds_any, merge_random, wrong) \
    X(merge_try_while_another_holds, merge_random, wrong) \
    X(merge_depth_over_all_cores, merge_random, wrong) \
    X(merge_depth_over_all_cores_by_hand, merge_by_hand, wrong) \
    X(merge_dependency_from_another_core, merge_random, wrong) \
    X(merge_dependency_from_last_record, merge_random, wrong) \
    X(merge_dependencies_none_while_another_holds, merge_random, wrong) \
    X(merge_kind_by_lock_of_another_core, merge_random, wrong) \
    X(merge_marks_unless_core_0_in_handler, merge_random, wrong) \
    X(merge_marks_unless_core_0_in_handler_long, merge_long, wrong) \
    X(merge_marks_by_state_of_another, merge_random, wrong) \
    X(merge_origin_by_lock_of_another_core, merge_random, wrong) \
    X(merge_counts_refusals_of_another_core, merge_random, wrong) \
    X(merge_counts_refusals_of_another_core_long, merge_long, wrong) \
    X(merge_counts_changes_of_core, merge_random, wrong) \
    X(merge_closed_by_first_core_only, merge_random, wrong) \
    X(merge_closed_by_first_core_only_by_hand, merge_by_hand, wrong) \
    X(merge_closed_by_core_of_last_record, merge_random, wrong) \
    X(merge_closed_but_by_marks_of_others, merge_random, wrong) \
    X(merge_first_seen_by_core, merge_seen, wrong) \
    X(merge_commit_by_any_core_at_once, merge_cross, wrong) \
    X(merge_crosslock_taken_late, merge_cross, wrong) \
    X(rules_circle_of_one_passed, rules_by_hand, wrong) \
    X(rules_circle_of_three_passed, rules_by_hand, wrong) \
    X(rules_circle_passed, rules_random, wrong) \
    X(rules_class_hard_passed, rules_random, wrong) \
    X(rules_class_soft_passed, rules_random, wrong) \
    X(rules_path_hard_passed, rules_random, wrong) \
    X(rules_path_soft_passed, rules_random, wrong) \
    X(rules_path_of_three_passed, rules_by_hand, wrong) \
    X(rules_levels_mixed, rules_by_hand, wrong) \
    X(rules_levels_mixed_random, rules_random, wrong) \
    X(rules_path_backward, rules_by_hand, wrong)

#define FEED_PLANTS(X) \
    X(start_short_by_one, feed_start, wrong) \
    X(start_short_writes, feed_start, wrong) \
    X(start_leaves_answer, feed_again, wrong) \
    X(start_leaves_opened, feed_again, wrong) \
    X(start_leaves_loose, feed_start, wrong) \
    X(start_leaves_number, feed_start, wrong) \
    X(start_clears_all, feed_start, wrong) \
    X(start_writes_before, feed_start, wrong) \
    X(feed_fit_short, feed_short, wrong) \
    X(feed_fit_opened_2, feed_unfit, wrong) \
    X(feed_fit_opened_255, feed_unfit, wrong) \
    X(feed_fit_header_count_4, feed_unfit, wrong) \
    X(feed_fit_header_count_5, feed_unfit, wrong) \
    X(feed_fit_record_count_6, feed_unfit, wrong) \
    X(feed_fit_record_count_255, feed_unfit, wrong) \
    X(feed_fit_unused_first, feed_unfit, wrong) \
    X(feed_fit_unused_last, feed_unfit, wrong) \
    X(feed_fit_unused_last_of_header, feed_unfit, wrong) \
    X(feed_fit_unused_past_the_next, feed_unfit, wrong) \
    X(feed_fit_answer_with_loose, feed_unfit, wrong) \
    X(feed_fit_2_with_loose, feed_unfit, wrong) \
    X(feed_fit_answer_before_opening, feed_unfit, wrong) \
    X(feed_fit_number_before_opening, feed_unfit, wrong) \
    X(feed_fit_high_number_before_opening, feed_unfit, wrong) \
    X(feed_fit_number_with_2, feed_unfit, wrong) \
    X(feed_fit_2_opened, feed_unfit, wrong) \
    X(feed_fit_9_at_0, feed_unfit, wrong) \
    X(feed_fit_9_before_opening, feed_unfit, wrong) \
    X(feed_fit_12, feed_unfit, wrong) \
    X(feed_fit_14, feed_unfit, wrong) \
    X(feed_fit_255, feed_unfit, wrong) \
    X(feed_fit_answer_at_0, feed_unfit, wrong) \
    X(feed_fit_answer_at_0_only_1, feed_unfit, wrong) \
    X(feed_fit_answer_at_256_refused, feed_unfit, wrong) \
    X(feed_fit_9_refused, feed_unfit, wrong) \
    X(feed_fit_10_refused, feed_unfit, wrong) \
    X(feed_fit_11_refused, feed_unfit, wrong) \
    X(feed_fit_2_refused, feed_header, wrong) \
    X(feed_fit_5_loose_refused, feed_cuts, wrong) \
    X(feed_fit_number_0_refused, feed_header, wrong) \
    X(feed_fit_not_tested_at_end, feed_unfit, wrong) \
    X(feed_fit_not_tested_for_nothing, feed_unfit, wrong) \
    X(unfit_feed_as_2, feed_unfit, wrong) \
    X(unfit_feed_started, feed_unfit, wrong) \
    X(unfit_feed_stays, feed_unfit, wrong) \
    X(unfit_feed_record_left, feed_unfit, wrong) \
    X(unfit_feed_record_of_buffer, feed_unfit, wrong) \
    X(unfit_feed_record_1, feed_short, wrong) \
    X(opens_at_first_byte, feed_header, wrong) \
    X(opens_at_third_byte, feed_header, wrong) \
    X(opens_with_2, feed_header, wrong) \
    X(opens_with_the_record, feed_header, wrong) \
    X(opening_clears_slip, feed_header, wrong) \
    X(opening_leaves_seen, feed_header, wrong) \
    X(opening_leaves_count, feed_header, wrong) \
    X(header_accepted, feed_seen, wrong) \
    X(header_byte_by_byte, feed_header, wrong) \
    X(header_signature_half, feed_header, wrong) \
    X(header_version_any, feed_header, wrong) \
    X(header_k_cut, feed_header, wrong) \
    X(header_k_over_as_64, feed_header, wrong) \
    X(header_counted, feed_header, wrong) \
    X(header_2_at_record_1, feed_header, wrong) \
    X(header_2_opened, feed_header, wrong) \
    X(header_2_forgotten, feed_stop, wrong) \
    X(header_2_keeps_loose, feed_cuts, wrong) \
    X(short_desk_as_11, feed_lengths, wrong) \
    X(short_sheet_as_11, feed_lengths, wrong) \
    X(short_seen_as_11, feed_lengths, wrong) \
    X(short_seen_at_first_byte, feed_lengths, wrong) \
    X(short_slip_as_2, feed_lengths, wrong) \
    X(short_desk_at_first_byte, feed_lengths, wrong) \
    X(feed_opens_desk_of_642, old_lengths_fed, wrong) \
    X(feed_opens_desk_of_1397, old_lengths_fed, wrong) \
    X(feed_steps_desk_of_642, old_lengths_fed, wrong) \
    X(feed_steps_desk_of_1397, old_lengths_fed, wrong) \
    X(feed_8_at_20, depth_fed, wrong) \
    X(feed_8_at_49, depth_fed, wrong) \
    X(record_byte_by_byte, feed_record, wrong) \
    X(record_core_at_once, feed_record, wrong) \
    X(record_of_five_bytes, feed_record, wrong) \
    X(follows_stop, feed_stop, wrong) \
    X(follows_fault, feed_stop, wrong) \
    X(follows_refusal, feed_stop, wrong) \
    X(follows_9, feed_count_full, wrong) \
    X(follows_5, feed_releases, wrong) \
    X(feed_release_mode_0, feed_releases, wrong) \
    X(feed_release_without_try, feed_releases, wrong) \
    X(feed_release_not_compared, feed_releases, wrong) \
    X(feed_release_newest_that_fits, feed_releases, wrong) \
    X(feed_release_modes_as_3, feed_releases, wrong) \
    X(feed_release_mode_lost_at_cut, feed_releases, wrong) \
    X(feed_misfit_passes, feed_releases, wrong) \
    X(feed_misfit_passes_in_logs, feed_stop, wrong) \
    X(feed_misfit_as_3, feed_releases, wrong) \
    X(keeps_loose_of_stopping_record, feed_cuts, wrong) \
    X(keeps_loose_behind_stop, feed_stop, wrong) \
    X(takes_all_into_loose, feed_stop, wrong) \
    X(number_off_at_fault, feed_cuts, wrong) \
    X(number_off_at_refusal, feed_stop, wrong) \
    X(number_off_at_9, feed_count_full, wrong) \
    X(number_off_at_clean, feed_cuts, wrong) \
    X(number_of_the_piece, feed_cuts, wrong) \
    X(loses_fifth_loose, feed_cuts, wrong) \
    X(loses_third_loose_of_header, feed_cuts, wrong) \
    X(loose_reversed, feed_end_loose, wrong) \
    X(loose_places_left, feed_cuts, wrong) \
    X(loose_count_left, feed_cuts, wrong) \
    X(loose_dropped_before_4c, feed_record, wrong) \
    X(loose_in_the_library, feed_two, wrong) \
    X(empty_piece_resets, feed_between, wrong) \
    X(empty_piece_drops_loose, feed_between, wrong) \
    X(empty_piece_says_0, feed_between, wrong) \
    X(empty_piece_counts, feed_between, wrong) \
    X(empty_piece_ends, feed_between, wrong) \
    X(empty_piece_looks_at_desk, feed_not_looked_at, wrong) \
    X(long_piece_cut_at_255, feed_long, wrong) \
    X(long_piece_cut_at_4096, feed_long, wrong) \
    X(long_piece_cut_at_65535, feed_many, wrong) \
    X(last_byte_lost, feed_cuts, wrong) \
    X(stopped_says_0, feed_stop, wrong) \
    X(stopped_says_10, feed_stop, wrong) \
    X(stopped_counts, feed_stop, wrong) \
    X(stopped_goes_on, feed_stop, wrong) \
    X(stopped_starts_at_header, feed_stop, wrong) \
    X(stopped_empty_says_0, feed_stop, wrong) \
    X(stopped_looks_at_desk, feed_stop, wrong) \
    X(stopped_asks_desk_again, feed_other_writer, wrong) \
    X(stopped_asks_count_again, feed_count_full, wrong) \
    X(stop_by_9_forgotten, feed_count_full, wrong) \
    X(stop_by_10_forgotten, feed_other_writer, wrong) \
    X(stop_by_11_forgotten, feed_other_writer, wrong) \
    X(number_wraps, feed_number, wrong) \
    X(number_of_8_bits, feed_many, wrong) \
    X(number_of_16_bits, feed_many, wrong) \
    X(number_of_32_bits, feed_number, wrong) \
    X(number_of_63_bits, feed_number, wrong) \
    X(number_stays_too_early, feed_number, wrong) \
    X(number_high_byte_first, feed_cuts, wrong) \
    X(number_stored_in_4_bytes, feed_number, wrong) \
    X(record_of_32_bits, feed_number, wrong) \
    X(record_left_at_clean, feed_cuts, wrong) \
    X(record_left_when_stopped, feed_stop, wrong) \
    X(record_left_at_the_end, feed_end, wrong) \
    X(record_writes_behind, feed_cuts, wrong) \
    X(feed_writes_past_16, feed_classes, wrong) \
    X(feed_writes_before, feed_cuts, wrong) \
    X(feed_writes_slip, feed_cuts, wrong) \
    X(feed_writes_sheet, feed_cuts, wrong) \
    X(feed_writes_seen, feed_cuts, wrong) \
    X(feed_counts_by_its_number, feed_seen, wrong) \
    X(feed_sees_by_its_number, feed_seen, wrong) \
    X(feed_shows_no_numbers, feed_seen, wrong) \
    X(feed_shows_second, shown_in_logs, wrong) \
    X(feed_shows_second_by_hand, shown_by_hand, wrong) \
    X(feed_shows_from_second_class, shown_in_logs, wrong) \
    X(feed_shows_cut, shown_by_hand, wrong) \
    X(feed_writes_piece, feed_cuts, wrong) \
    X(feed_reads_behind_feed, feed_example, killed) \
    X(feed_reads_before_feed, feed_example, killed) \
    X(feed_reads_behind_piece, feed_example, killed) \
    X(feed_reads_before_piece, feed_example, killed) \
    X(feed_reads_short_feed, feed_short, killed) \
    X(feed_reads_desk_before_opening, feed_not_looked_at, killed) \
    X(end_answers_0, feed_end, wrong) \
    X(end_answers_0_to_five, feed_end, wrong) \
    X(end_answers_0_to_nothing, feed_end, wrong) \
    X(end_answers_3_to_short_header, feed_end, wrong) \
    X(end_answers_2_opened, feed_end, wrong) \
    X(end_answers_3_for_11, feed_end_order, wrong) \
    X(end_answers_3_for_10, feed_end_order, wrong) \
    X(end_answers_10_for_11, feed_end_order, wrong) \
    X(end_answers_9, feed_end_order, wrong) \
    X(end_answers_9_without_loose, feed_end_order, wrong) \
    X(end_answers_3_for_short_seen, feed_end_order, wrong) \
    X(end_answers_3_for_a_number, feed_end_order, wrong) \
    X(end_answers_11_without_loose, feed_end_order, wrong) \
    X(end_answers_10_without_loose, feed_end_order, wrong) \
    X(end_forgets_2, feed_end, wrong) \
    X(end_forgets_3, feed_end, wrong) \
    X(end_forgets_10, feed_end_order, wrong) \
    X(end_forgets_11, feed_end_order, wrong) \
    X(end_opens, feed_end, wrong) \
    X(end_opens_short_header, feed_end, wrong) \
    X(end_pads_record, feed_end, wrong) \
    X(end_closes_desk, feed_end, wrong) \
    X(end_writes_slip, feed_end, wrong) \
    X(end_writes_seen, feed_end, wrong) \
    X(end_counts, feed_end, wrong) \
    X(end_writes_past_16, feed_again, wrong) \
    X(end_keeps_loose, feed_end, wrong) \
    X(end_keeps_loose_of_header, feed_end, wrong) \
    X(end_number_not_counted, feed_end, wrong) \
    X(end_number_two_more, feed_end, wrong) \
    X(end_number_off_at_clean, feed_end, wrong) \
    X(end_number_0, feed_end, wrong) \
    X(end_2_at_record_1, feed_end, wrong) \
    X(end_number_wraps, feed_number, wrong) \
    X(end_starts_again, feed_end, wrong) \
    X(end_stops, feed_end, wrong) \
    X(end_drops_stop, feed_stop, wrong) \
    X(end_repeats_as_3, feed_stop, wrong) \
    X(end_repeats_number_more, feed_stop, wrong) \
    X(end_reads_behind_feed, feed_end, killed) \
    X(feed_tie_kept, above_count, wrong) \
    X(feed_tie_kept_for_joined, join_feed_on, wrong) \
    X(feed_refuses_fresh_with_kinds, join_feed_on, wrong) \
    X(end_tie_kept, above_count, wrong) \
    X(end_tie_kept_for_joined, join_feed_on, wrong) \
    X(long_header_of_4, cross_feed_header, wrong) \
    X(long_header_by_signature, cross_feed_header, wrong) \
    X(long_header_by_first_byte, cross_feed_header, wrong) \
    X(long_header_of_other_versions, cross_feed_header, wrong) \
    X(long_header_of_11, cross_feed_header, wrong) \
    X(long_header_for_all, cross_feed_header, wrong) \
    X(header_version_2_refused, cross_feed_header, wrong) \
    X(header_version_3_taken, cross_feed_header, wrong) \
    X(long_header_opens_at_fourth, cross_feed_header, wrong) \
    X(long_header_k_at_once, cross_feed_header, wrong) \
    X(header_word_ignored, cross_feed_header, wrong) \
    X(header_word_high_byte_first, cross_feed_header, wrong) \
    X(header_word_of_4_bytes, cross_feed_header, wrong) \
    X(header_word_of_one_byte, cross_feed_header, wrong) \
    X(header_word_cut_to_k, cross_feed_header, wrong) \
    X(header_word_of_last_log, cross_feed_header, wrong) \
    X(loses_eleventh_loose, cross_feed_header, wrong) \
    X(loses_sixth_loose, cross_feed_header, wrong) \
    X(keeps_five_loose, cross_feed_header, wrong) \
    X(opening_leaves_history, cross_feed_header, wrong) \
    X(short_history_as_11, cross_feed_lengths, wrong) \
    X(short_history_opened, cross_feed_lengths, wrong) \
    X(short_history_stepped, cross_feed_lengths, wrong) \
    X(end_answers_0_to_short_history, cross_feed_lengths, wrong) \
    X(end_answers_3_to_unfit_history, cross_feed_lengths, wrong) \
    X(end_answers_3_to_part_of_long_header, cross_feed_end, wrong) \
    X(end_opens_part_of_long_header, cross_feed_end, wrong) \
    X(end_keeps_loose_of_long_header, cross_feed_end, wrong) \
    X(feed_fit_long_count_12, cross_feed_fit, wrong) \
    X(feed_fit_count_11_of_any_version, cross_feed_fit, wrong) \
    X(feed_fit_count_4_of_any_version, cross_feed_fit, wrong) \
    X(feed_fit_count_7_of_a_record, cross_feed_fit, wrong) \
    X(feed_fit_long_count_refused, cross_feed_fit, wrong) \
    X(feed_fit_long_count_11_refused, cross_feed_fit, wrong) \
    X(feed_fit_unused_eleventh, cross_feed_fit, wrong) \
    X(feed_fit_13, cross_feed_fit, wrong) \
    X(feed_fit_20, cross_feed_fit, wrong) \
    X(feed_fit_15_refused, cross_feed_fit, wrong) \
    X(feed_fit_19_refused, cross_feed_fit, wrong) \
    X(feed_fit_15_before_opening, cross_feed_fit, wrong) \
    X(follows_15, cross_feed_cuts, wrong) \
    X(follows_17, cross_feed_cuts, wrong) \
    X(stop_by_16_forgotten, cross_feed_cuts, wrong) \
    X(feed_keeps_no_history, cross_feed_cuts, wrong) \
    X(feed_15_as_3, cross_feed_cuts, wrong) \
    X(feed_clears_history_at_each_piece, cross_feed_long, wrong)

#define BALANCE_PLANTS(X) \
    X(balance_60000_refused, balance_lengths, wrong) \
    X(balance_59994_refused, balance_lengths, wrong) \
    X(balance_60006_taken, balance_lengths, wrong) \
    X(balance_60012_taken, balance_lengths, wrong) \
    X(balance_limit_10000_bytes, balance_lengths, wrong) \
    X(balance_limit_4096_records, balance_lengths, wrong) \
    X(balance_limit_65535_bytes, balance_lengths, wrong) \
    X(balance_limit_65535_records, balance_longer, wrong) \
    X(balance_limit_60000_records, balance_longer, wrong) \
    X(balance_limit_of_16_bits, balance_lengths, wrong) \
    X(balance_limit_of_17_bits, balance_longer, wrong) \
    X(balance_limit_of_20_bits, balance_longer, wrong) \
    X(balance_limit_of_31_bits, balance_huge, wrong) \
    X(balance_limit_of_32_bits, balance_huge, wrong) \
    X(balance_limit_signed, balance_huge, wrong) \
    X(balance_no_limit, balance_lengths, wrong) \
    X(balance_long_cut, balance_lengths, wrong) \
    X(balance_60001_taken, balance_lengths, wrong) \
    X(balance_rest_ignored, balance_lengths, wrong) \
    X(balance_rest_1_taken, balance_lengths, wrong) \
    X(balance_rest_2_taken, balance_lengths, wrong) \
    X(balance_rest_3_taken, balance_lengths, wrong) \
    X(balance_rest_4_taken, balance_lengths, wrong) \
    X(balance_rest_5_taken, balance_lengths, wrong) \
    X(balance_rest_of_8_bits, balance_lengths, wrong) \
    X(balance_rest_ignored_of_long, balance_lengths, wrong) \
    X(balance_rest_ignored_of_short, balance_lengths, wrong) \
    X(balance_rest_padded, balance_lengths, wrong) \
    X(balance_whole_by_2, balance_lengths, wrong) \
    X(balance_whole_by_3, balance_lengths, wrong) \
    X(balance_whole_by_4, balance_lengths, wrong) \
    X(balance_whole_by_12, balance_lengths, wrong) \
    X(balance_empty_refused, balance_lengths, wrong) \
    X(balance_one_record_refused, balance_lengths, wrong) \
    X(balance_log_taken, balance_header, wrong) \
    X(balance_log_taken_by_its_k, balance_header, wrong) \
    X(balance_refused_as_0, balance_lengths, wrong) \
    X(balance_refused_as_1, balance_lengths, wrong) \
    X(balance_refused_as_11, balance_lengths, wrong) \
    X(balance_refused_as_12, balance_lengths, wrong) \
    X(balance_refused_as_13, balance_lengths, wrong) \
    X(balance_refused_as_15, balance_lengths, wrong) \
    X(balance_refused_as_255, balance_lengths, wrong) \
    X(balance_rest_as_3, balance_lengths, wrong) \
    X(balance_rest_as_2, balance_lengths, wrong) \
    X(balance_rest_as_11, balance_lengths, wrong) \
    X(balance_long_as_2, balance_lengths, wrong) \
    X(balance_long_as_3, balance_lengths, wrong) \
    X(balance_long_as_8, balance_lengths, wrong) \
    X(balance_long_as_9, balance_lengths, wrong) \
    X(balance_long_as_13, balance_lengths, wrong) \
    X(balance_log_as_2, balance_header, wrong) \
    X(balance_first_byte_any, balance_bytes, wrong) \
    X(balance_second_byte_any, balance_bytes, wrong) \
    X(balance_signature_any, balance_bytes, wrong) \
    X(balance_signature_either, balance_bytes, wrong) \
    X(balance_signature_turned, balance_malformed, wrong) \
    X(balance_signature_of_header, balance_malformed, wrong) \
    X(balance_signature_of_7_bits, balance_bytes, wrong) \
    X(balance_signature_small, balance_bytes, wrong) \
    X(balance_core_8, balance_cores, wrong) \
    X(balance_core_255, balance_cores, wrong) \
    X(balance_core_any, balance_cores, wrong) \
    X(balance_core_7_left_out, balance_lengths, wrong) \
    X(balance_core_0_only, balance_cores, wrong) \
    X(balance_core_0_left_out, balance_lengths, wrong) \
    X(balance_mode_6, balance_modes, wrong) \
    X(balance_mode_255, balance_modes, wrong) \
    X(balance_mode_any, balance_modes, wrong) \
    X(balance_mode_of_3_bits, balance_modes, wrong) \
    X(balance_modes_0_to_2, balance_modes, wrong) \
    X(balance_mode_0_only, balance_modes, wrong) \
    X(balance_reads_left_out, balance_modes, wrong) \
    X(balance_mode_3_left_out, balance_modes, wrong) \
    X(balance_mode_4_left_out, balance_modes, wrong) \
    X(balance_mode_5_left_out, balance_modes, wrong) \
    X(balance_release_mode_0_only, balance_modes, wrong) \
    X(balance_release_mode_0_only_by_example, balance_example, wrong) \
    X(balance_release_modes_0_and_1, balance_modes, wrong) \
    X(balance_release_modes_0_and_3, balance_modes, wrong) \
    X(balance_release_modes_0_to_2, balance_modes, wrong) \
    X(balance_release_tries_only, balance_modes, wrong) \
    X(balance_release_mode_2_left_out, balance_modes, wrong) \
    X(balance_release_mode_5_left_out, balance_modes, wrong) \
    X(balance_release_mode_6, balance_modes, wrong) \
    X(balance_release_mode_255, balance_modes, wrong) \
    X(balance_release_mode_of_3_bits, balance_modes, wrong) \
    X(balance_release_mode_any, balance_modes, wrong) \
    X(balance_fitting_only, balance_modes, wrong) \
    X(balance_fitting_only_of_several, balance_releases, wrong) \
    X(balance_same_origin_only, balance_modes, wrong) \
    X(balance_misfit_ends, balance_releases, wrong) \
    X(balance_misfit_as_5, balance_modes, wrong) \
    X(balance_misfit_as_14, balance_modes, wrong) \
    X(balance_kind_2_acquires, balance_kinds, wrong) \
    X(balance_kind_2_releases, balance_kinds, wrong) \
    X(balance_kind_9_releases, balance_kinds, wrong) \
    X(balance_kinds_by_low_bit, balance_kinds, wrong) \
    X(balance_kinds_over_0_release, balance_kinds, wrong) \
    X(balance_kinds_of_4_bits, balance_kinds, wrong) \
    X(balance_kinds_of_7_bits, balance_kinds, wrong) \
    X(balance_kind_10_releases, balance_kinds, wrong) \
    X(balance_kind_255_releases, balance_kinds, wrong) \
    X(balance_events_with_a_class, balance_kinds, wrong) \
    X(balance_events_with_a_mode, balance_bytes, wrong) \
    X(balance_class_64_at_0, balance_classes, wrong) \
    X(balance_class_64_at_63, balance_classes, wrong) \
    X(balance_class_255_at_0, balance_classes, wrong) \
    X(balance_class_of_6_bits, balance_classes, wrong) \
    X(balance_class_of_7_bits, balance_classes, wrong) \
    X(balance_class_over_at_63, balance_classes, wrong) \
    X(balance_class_0_left_out, balance_classes, wrong) \
    X(balance_class_63_left_out, balance_classes, wrong) \
    X(balance_32_classes, balance_classes, wrong) \
    X(balance_8_classes, balance_classes, wrong) \
    X(balance_classes_turned, balance_classes, wrong) \
    X(balance_classes_one_up, balance_classes, wrong) \
    X(balance_classes_as_kinds, balance_classes, wrong) \
    X(balance_below_0_not_kept, balance_order, wrong) \
    X(balance_at_most_1, balance_numbers, wrong) \
    X(balance_at_most_20, balance_numbers, wrong) \
    X(balance_at_most_48, balance_numbers, wrong) \
    X(balance_at_most_127, balance_numbers, wrong) \
    X(balance_at_most_255, balance_numbers, wrong) \
    X(balance_at_most_4095, balance_numbers, wrong) \
    X(balance_at_most_9999, balance_most, wrong) \
    X(balance_at_least_1_below, balance_numbers, wrong) \
    X(balance_at_least_128_below, balance_numbers, wrong) \
    X(balance_at_least_4096_below, balance_numbers, wrong) \
    X(balance_at_least_9999_below, balance_most, wrong) \
    X(balance_below_0_as_0, balance_numbers, wrong) \
    X(balance_below_0_as_most, balance_numbers, wrong) \
    X(balance_absolute, balance_numbers, wrong) \
    X(balance_turned, balance_order, wrong) \
    X(balance_twice, balance_numbers, wrong) \
    X(balance_as_sign, balance_numbers, wrong) \
    X(balance_of_8_bits, balance_numbers, wrong) \
    X(balance_of_8_bits_unsigned, balance_numbers, wrong) \
    X(balance_of_12_bits, balance_numbers, wrong) \
    X(balance_of_12_bits_unsigned, balance_numbers, wrong) \
    X(balance_of_13_bits, balance_numbers, wrong) \
    X(balance_of_14_bits, balance_numbers, wrong) \
    X(balance_of_16_bits_unsigned, balance_numbers, wrong) \
    X(balance_high_byte_first, balance_numbers, wrong) \
    X(balance_first_left_out, balance_lengths, wrong) \
    X(balance_last_left_out, balance_lengths, wrong) \
    X(balance_last_of_most_left_out, balance_most, wrong) \
    X(balance_every_other, balance_lengths, wrong) \
    X(balance_only_255, balance_lengths, wrong) \
    X(balance_only_4096_bytes, balance_lengths, wrong) \
    X(balance_only_4096, balance_lengths, wrong) \
    X(balance_only_8192, balance_numbers, wrong) \
    X(balance_from_the_end, balance_malformed_long, wrong) \
    X(balance_accepted_only, balance_not_accepted, wrong) \
    X(balance_up_to_refusal, balance_not_accepted, wrong) \
    X(balance_up_to_fault, balance_not_accepted, wrong) \
    X(balance_not_full_only, balance_not_accepted, wrong) \
    X(balance_held_only, balance_not_accepted, wrong) \
    X(balance_own_core_only, balance_order, wrong) \
    X(balance_malformed_ends, balance_malformed, wrong) \
    X(balance_signature_ends, balance_malformed, wrong) \
    X(balance_zeros_end, balance_malformed, wrong) \
    X(balance_class_64_ends, balance_classes, wrong) \
    X(balance_malformed_as_3, balance_malformed, wrong) \
    X(balance_malformed_as_14, balance_malformed, wrong) \
    X(balance_malformed_as_14_counted, balance_malformed, wrong) \
    X(balance_malformed_first_as_14, balance_malformed, wrong) \
    X(balance_malformed_last_as_14, balance_malformed, wrong) \
    X(balance_class_64_as_4, balance_classes, wrong) \
    X(balance_class_64_as_14, balance_classes, wrong) \
    X(balance_malformed_clears, balance_malformed, wrong) \
    X(balance_malformed_takes_next, balance_malformed, wrong) \
    X(balance_acquire_sets_1, balance_order, wrong) \
    X(balance_release_sets_0, balance_order, wrong) \
    X(balance_acquires_only, balance_order, wrong) \
    X(balance_releases_only, balance_order, wrong) \
    X(balance_below_0_as_5, balance_example, wrong) \
    X(balance_below_0_as_14, balance_example, wrong) \
    X(balance_full_as_8, balance_numbers, wrong) \
    X(balance_uneven_as_1, balance_example, wrong) \
    X(balance_nothing_as_14, balance_example, wrong) \
    X(balance_first_not_written, balance_written, wrong) \
    X(balance_last_not_written, balance_written, wrong) \
    X(balance_left_where_not_met, balance_written, wrong) \
    X(balance_left_where_even, balance_written, wrong) \
    X(balance_left_of_nothing, balance_written, wrong) \
    X(balance_numbers_of_2_bytes, balance_written, wrong) \
    X(balance_added_to_old, balance_written, wrong) \
    X(balance_added_to_last, balance_again, wrong) \
    X(balance_summed_up, balance_order, wrong) \
    X(balance_14_leaves_first, balance_written, wrong) \
    X(balance_14_leaves_last, balance_written, wrong) \
    X(balance_14_clears_32, balance_written, wrong) \
    X(balance_14_clears_64_bytes, balance_written, wrong) \
    X(balance_14_leaves_all, balance_written, wrong) \
    X(balance_14_leaves_long, balance_written, wrong) \
    X(balance_14_leaves_rest, balance_written, wrong) \
    X(balance_14_with_sums, balance_written, wrong) \
    X(balance_14_with_sums_of_long, balance_written, wrong) \
    X(balance_14_with_sums_of_rest, balance_written, wrong) \
    X(balance_14_writes_1_below, balance_written, wrong) \
    X(balance_writes_65, balance_written, wrong) \
    X(balance_writes_65_on_14, balance_written, wrong) \
    X(balance_writes_before, balance_written, wrong) \
    X(balance_writes_piece, balance_random, wrong) \
    X(balance_writes_end_of_piece, balance_random, wrong) \
    X(balance_writes_piece_and_back, balance_read_only, killed) \
    X(balance_writes_behind_piece, balance_random, wrong) \
    X(balance_writes_before_piece, balance_random, wrong) \
    X(balance_reads_behind_piece, balance_example, killed) \
    X(balance_reads_before_piece, balance_example, killed) \
    X(balance_reads_a_whole_record, balance_example, killed) \
    X(balance_reads_behind_balances, balance_example, killed) \
    X(balance_reads_before_balances, balance_example, killed) \
    X(balance_piece_aligned_by_2, balance_places, wrong) \
    X(balance_piece_aligned_by_16, balance_places, wrong) \
    X(balance_numbers_aligned_by_8, balance_places, wrong) \
    X(balance_refused_behind_refused, balance_again, wrong) \
    X(balance_length_of_8_bits, balance_lengths, wrong) \
    X(balance_length_of_16_bits, balance_lengths, wrong) \
    X(balance_length_of_32_bits, balance_huge, wrong) \
    X(balance_searches_signature, balance_header, wrong) \
    X(balance_crosslock_acquires, cross_balance, wrong) \
    X(balance_commit_releases, cross_balance, wrong) \
    X(balance_crosslock_releases, cross_balance, wrong) \
    X(balance_refuses_crosslocks, cross_balance, wrong) \
    X(balance_stops_at_crosslock, cross_balance, wrong)

#define JOIN_PLANTS(X) \
    X(join_one_not_tested, join_unfit, wrong) \
    X(join_two_not_tested, join_unfit, wrong) \
    X(join_sheets_not_tested, join_unfit, wrong) \
    X(join_kinds_not_tested, join_unfit, wrong) \
    X(join_numbers_not_tested, join_unfit, wrong) \
    X(join_numbers_of_one_not_tested, join_unfit, wrong) \
    X(join_numbers_of_two_not_tested, join_unfit, wrong) \
    X(join_marks_not_tested, join_unfit, wrong) \
    X(join_origins_not_tested, join_unfit, wrong) \
    X(join_cores_not_tested, join_unfit, wrong) \
    X(join_closed_2_taken, join_unfit, wrong) \
    X(join_marks_fit_by_either, join_unfit_halves, wrong) \
    X(join_pairs_fit_by_either, join_unfit_halves, wrong) \
    X(join_tie_kept, join_untied, wrong) \
    X(join_tie_of_one, join_untied, wrong) \
    X(join_tie_of_two, join_untied, wrong) \
    X(join_tie_by_other_count, join_untied, wrong) \
    X(join_tie_by_sum, join_untied, wrong) \
    X(join_tie_of_joined, join_untied, wrong) \
    X(join_desk_short_by_one, join_every_k, wrong) \
    X(join_sheet_short_by_one, join_every_k, wrong) \
    X(join_seen_short_by_one, join_every_k, wrong) \
    X(join_slip_short_by_one, join_every_k, wrong) \
    X(join_desk_of_578, join_short, wrong) \
    X(join_desk_of_642, join_short, wrong) \
    X(join_desk_of_1394, join_short, wrong) \
    X(join_seen_of_k_x_k, join_short, wrong) \
    X(join_slip_of_3, join_short, wrong) \
    X(join_slip_not_tested, join_lengths, wrong) \
    X(join_slip_for_faults_only, join_lengths, wrong) \
    X(join_room_for_64, join_every_k, wrong) \
    X(join_room_for_smaller, join_classes, wrong) \
    X(join_room_for_first, join_classes, wrong) \
    X(join_room_for_second, join_classes, wrong) \
    X(join_sheet_for_smaller, join_classes, wrong) \
    X(join_seen_for_smaller, join_classes, wrong) \
    X(join_slip_for_smaller, join_classes, wrong) \
    X(join_sheet_for_first, join_classes, wrong) \
    X(join_slip_for_second, join_classes, wrong) \
    X(join_room_for_both, join_classes, wrong) \
    X(join_twelve_before_11, join_order, wrong) \
    X(join_twelve_before_fit, join_order, wrong) \
    X(join_twelve_before_room, join_classes, wrong) \
    X(join_twelve_before_fit_of_two, join_order, wrong) \
    X(join_thirteen_before_11, join_order, wrong) \
    X(join_thirteen_before_fit, join_order, wrong) \
    X(join_thirteen_before_room, join_order, wrong) \
    X(join_thirteen_before_fit_of_two, join_order, wrong) \
    X(join_thirteen_before_12, join_order, wrong) \
    X(join_thirteen_of_one_before_12, join_order, wrong) \
    X(join_thirteen_of_two_before_12, join_order, wrong) \
    X(join_unfit_as_2, join_unfit, wrong) \
    X(join_unfit_as_10, join_unfit, wrong) \
    X(join_unfit_as_13, join_unfit, wrong) \
    X(join_room_as_2, join_every_k, wrong) \
    X(join_room_as_12, join_classes, wrong) \
    X(join_other_k_as_11, join_classes, wrong) \
    X(join_other_k_as_2, join_other_classes, wrong) \
    X(join_other_k_as_13, join_other_classes, wrong) \
    X(join_other_k_taken, join_other_classes, wrong) \
    X(join_smaller_k_taken, join_classes, wrong) \
    X(join_larger_k_taken, join_classes, wrong) \
    X(join_closed_as_10, join_closed, wrong) \
    X(join_closed_as_11, join_closed, wrong) \
    X(join_closed_as_12, join_closed, wrong) \
    X(join_closed_as_1, join_closed, wrong) \
    X(join_one_closed_taken, join_closed, wrong) \
    X(join_two_closed_taken, join_closed, wrong) \
    X(join_closed_if_both, join_closed, wrong) \
    X(join_closed_with_cycle_only, join_closed, wrong) \
    X(join_own_cycle_as_13, join_own_cycle, wrong) \
    X(join_own_cycle_of_two_as_13, join_own_cycle, wrong) \
    X(join_full_count_as_9, join_fresh, wrong) \
    X(join_held_locks_as_7, join_fresh, wrong) \
    X(join_itself_as_11, join_itself, wrong) \
    X(join_same_desk_as_11, join_overlap, wrong) \
    X(join_same_sheet_as_11, join_overlap, wrong) \
    X(join_same_seen_as_11, join_overlap, wrong) \
    X(join_eleven_writes_desk, join_every_k, wrong) \
    X(join_eleven_clears_seen, join_lengths, wrong) \
    X(join_eleven_writes_slip, join_lengths, wrong) \
    X(join_twelve_writes_sheet, join_classes, wrong) \
    X(join_twelve_opens, join_other_classes, wrong) \
    X(join_thirteen_closes, join_closed, wrong) \
    X(join_thirteen_writes_slip, join_closed, wrong) \
    X(join_thirteen_joins, join_closed, wrong) \
    X(join_k_not_written, join_every_k, wrong) \
    X(join_keeps_states_of_one, join_parts, wrong) \
    X(join_keeps_states_of_two, join_parts, wrong) \
    X(join_keeps_depths_of_one, join_parts, wrong) \
    X(join_keeps_held_of_one, join_parts, wrong) \
    X(join_keeps_held_of_two, join_parts, wrong) \
    X(join_keeps_origins_of_two, join_parts, wrong) \
    X(join_keeps_count_of_one, join_parts, wrong) \
    X(join_keeps_count_of_two, join_parts, wrong) \
    X(join_count_of_both, join_fresh, wrong) \
    X(join_count_highest, join_untied, wrong) \
    X(join_count_1_at_fault, join_fresh, wrong) \
    X(join_count_of_pairs, join_pairs, wrong) \
    X(join_copies_desk_of_one, join_fresh, wrong) \
    X(join_leaves_last_byte, join_every_k, wrong) \
    X(join_leaves_origins, join_every_k, wrong) \
    X(join_leaves_closed, join_over, wrong) \
    X(join_not_closed_at_fault, join_example, wrong) \
    X(join_closed_at_once, join_every_k, wrong) \
    X(join_closed_as_2, join_example, wrong) \
    X(join_cores_with_hard_off, join_every_k, wrong) \
    X(join_marks_of_one, join_marks, wrong) \
    X(join_marks_of_two, join_marks, wrong) \
    X(join_marks_of_both_only, join_marks, wrong) \
    X(join_marks_xor, join_marks, wrong) \
    X(join_marks_added, join_marks, wrong) \
    X(join_marks_higher, join_marks, wrong) \
    X(join_marks_of_one_first, join_marks, wrong) \
    X(join_marks_soft_of_one, join_marks, wrong) \
    X(join_marks_safe_of_one, join_marks, wrong) \
    X(join_marks_unsafe_of_two, join_marks, wrong) \
    X(join_marks_of_63_left_out, join_parts, wrong) \
    X(join_marks_of_first_8, join_parts, wrong) \
    X(join_sheet_of_one, join_kinds, wrong) \
    X(join_sheet_of_two, join_kinds, wrong) \
    X(join_sheet_of_both_only, join_kinds, wrong) \
    X(join_sheet_xor, join_kinds, wrong) \
    X(join_sheet_added, join_kinds, wrong) \
    X(join_sheet_higher, join_kinds, wrong) \
    X(join_sheet_of_one_first, join_kinds, wrong) \
    X(join_sheet_of_two_first, join_kinds, wrong) \
    X(join_sheet_lowest_kind, join_kinds, wrong) \
    X(join_sheet_without_weak, join_kinds, wrong) \
    X(join_sheet_first_pair_left, join_pairs, wrong) \
    X(join_sheet_last_pair_left, join_pairs, wrong) \
    X(join_sheet_diagonal_left_out, join_pairs, wrong) \
    X(join_sheet_of_two_transposed, join_pairs, wrong) \
    X(join_sheet_only_63_rows, join_all_pairs, wrong) \
    X(join_number_of_two_first, join_numbers, wrong) \
    X(join_number_lower, join_numbers, wrong) \
    X(join_number_higher, join_numbers, wrong) \
    X(join_number_added, join_numbers, wrong) \
    X(join_number_or, join_numbers, wrong) \
    X(join_number_by_low_byte, join_numbers, wrong) \
    X(join_number_by_16_bits, join_numbers, wrong) \
    X(join_number_by_24_bits, join_numbers, wrong) \
    X(join_number_of_one_only, join_numbers, wrong) \
    X(join_number_of_two_only, join_numbers, wrong) \
    X(join_number_always_1, join_numbers, wrong) \
    X(join_number_0, join_numbers, wrong) \
    X(join_number_of_3_bytes, join_numbers, wrong) \
    X(join_number_of_31_bits, join_numbers, wrong) \
    X(join_number_high_byte_first, join_numbers, wrong) \
    X(join_number_by_lowest_kind, join_number_of_other_kind, wrong) \
    X(join_number_behind_count_of_one, join_number_of_other_kind, wrong) \
    X(join_number_at_most_count, join_untied, wrong) \
    X(join_number_of_last_left, join_pairs, wrong) \
    X(join_number_of_two_transposed, join_pairs, wrong) \
    X(join_number_where_kinds_differ, join_numbers, wrong) \
    X(join_never_fault, join_example, wrong) \
    X(join_always_fault, join_every_k, wrong) \
    X(join_fault_not_seen_of_one_class, join_kinds, wrong) \
    X(join_searched_without_marks, join_by_marks, wrong) \
    X(join_searched_without_soft, join_by_marks, wrong) \
    X(join_searched_without_hard, join_by_marks, wrong) \
    X(join_searched_marks_of_one, join_by_marks_of_logs, wrong) \
    X(join_searched_sheet_of_one, join_example, wrong) \
    X(join_searched_sheet_of_two, join_there_and_back, wrong) \
    X(join_searched_apart, join_there_and_back, wrong) \
    X(join_searched_apart_of_logs, join_logs, wrong) \
    X(join_searched_for_new_only, join_own_cycle, wrong) \
    X(join_joints_ignored, join_there_and_back, wrong) \
    X(join_joints_ignored_in_paths, join_paths, wrong) \
    X(join_lost_between_benches, join_full_slip, wrong) \
    X(join_fault_remembered, join_refused, wrong) \
    X(join_slip_not_written, join_example, wrong) \
    X(join_slip_numbers_0, join_example, wrong) \
    X(join_slip_numbers_of_one, join_example, wrong) \
    X(join_slip_numbers_of_two, join_example, wrong) \
    X(join_slip_numbers_by_kind, join_number_of_other_kind, wrong) \
    X(join_slip_number_with_marks, join_shown, wrong) \
    X(join_slip_high_byte_first, join_numbers, wrong) \
    X(join_slip_from_second_class, join_example, wrong) \
    X(join_slip_entries_with_3, join_example, wrong) \
    X(join_slip_of_own_cycle, join_own_cycle, wrong) \
    X(join_slip_of_own_cycle_shown, join_random, wrong) \
    X(join_slip_cleared_when_clean, join_every_k, wrong) \
    X(join_slip_rest_cleared, join_example, wrong) \
    X(join_slip_rest_cleared_of_63, join_full_slip, wrong) \
    X(join_adds_to_old_marks, join_over, wrong) \
    X(join_adds_to_old_sheet, join_over, wrong) \
    X(join_keeps_old_numbers, join_over, wrong) \
    X(join_leaves_where_no_kinds, join_over, wrong) \
    X(join_leaves_numbers_where_none, join_over, wrong) \
    X(join_clears_all_of_desk, join_past, wrong) \
    X(join_clears_all_of_sheet, join_past, wrong) \
    X(join_clears_all_of_seen, join_past, wrong) \
    X(join_writes_seen_of_16_classes, join_past, wrong) \
    X(join_closes_one_at_fault, join_example, wrong) \
    X(join_closes_both_at_fault, join_example, wrong) \
    X(join_opens_one_after, join_fresh, wrong) \
    X(join_reads_behind_desk_1, join_example, killed) \
    X(join_reads_behind_sheet_1, join_example, killed) \
    X(join_reads_behind_seen_1, join_example, killed) \
    X(join_reads_behind_desk_2, join_example, killed) \
    X(join_reads_behind_sheet_2, join_example, killed) \
    X(join_reads_behind_seen_2, join_example, killed) \
    X(join_reads_behind_desk_3, join_example, killed) \
    X(join_reads_behind_sheet_3, join_example, killed) \
    X(join_reads_behind_seen_3, join_example, killed) \
    X(join_reads_behind_slip_3, join_example, killed) \
    X(join_reads_before_desk_1, join_example, killed) \
    X(join_reads_before_sheet_1, join_example, killed) \
    X(join_reads_before_seen_1, join_example, killed) \
    X(join_reads_before_desk_2, join_example, killed) \
    X(join_reads_before_sheet_2, join_example, killed) \
    X(join_reads_before_seen_2, join_example, killed) \
    X(join_reads_before_desk_3, join_example, killed) \
    X(join_reads_before_sheet_3, join_example, killed) \
    X(join_reads_before_seen_3, join_example, killed) \
    X(join_reads_before_slip_3, join_example, killed) \
    X(join_writes_behind_desk_1, join_example, wrong) \
    X(join_writes_behind_sheet_1, join_example, wrong) \
    X(join_writes_behind_seen_1, join_example, wrong) \
    X(join_writes_behind_desk_2, join_example, wrong) \
    X(join_writes_behind_sheet_2, join_example, wrong) \
    X(join_writes_behind_seen_2, join_example, wrong) \
    X(join_writes_behind_desk_3, join_example, wrong) \
    X(join_writes_behind_sheet_3, join_example, wrong) \
    X(join_writes_behind_seen_3, join_example, wrong) \
    X(join_writes_behind_slip_3, join_example, wrong) \
    X(join_writes_desk_1, join_example, wrong) \
    X(join_writes_sheet_1, join_example, wrong) \
    X(join_writes_seen_1, join_example, wrong) \
    X(join_writes_desk_2, join_example, wrong) \
    X(join_writes_sheet_2, join_example, wrong) \
    X(join_writes_seen_2, join_example, wrong) \
    X(join_writes_desk_1_and_back, join_read_only, killed) \
    X(join_writes_sheet_1_and_back, join_read_only, killed) \
    X(join_writes_seen_1_and_back, join_read_only, killed) \
    X(join_writes_desk_2_and_back, join_read_only, killed) \
    X(join_writes_sheet_2_and_back, join_read_only, killed) \
    X(join_writes_seen_2_and_back, join_read_only, killed) \
    X(join_reads_k_of_one_first, join_short, killed) \
    X(join_reads_k_of_two_first, join_short, killed) \
    X(join_words_taken, cross_join, wrong) \
    X(join_words_by_low_byte, cross_join, wrong) \
    X(join_words_by_32_bits, cross_join, wrong) \
    X(join_words_of_one_in_two_taken, cross_join, wrong) \
    X(join_words_as_11, cross_join, wrong) \
    X(join_words_as_13, cross_join, wrong) \
    X(join_words_before_11, cross_join, wrong) \
    X(join_words_behind_13, cross_join, wrong) \
    X(join_word_not_written, cross_join, wrong) \
    X(join_word_of_32_bits, cross_join, wrong) \
    X(join_keeps_progress_of_one, cross_join_on, wrong) \
    X(join_keeps_progress_of_two, cross_join, wrong) \
    X(join_keeps_kept_of_one, cross_join, wrong) \
    X(join_keeps_kept_of_two, cross_join_on, wrong) \
    X(join_keeps_since_of_one, cross_join, wrong) \
    X(join_keeps_since_of_two, cross_join, wrong) \
    X(join_progress_as_13, cross_join, wrong) \
    X(join_progress_as_11, cross_join_on, wrong) \
    X(join_kept_as_11, cross_join, wrong) \
    X(join_crosslocks_not_tested, cross_join_unfit, wrong) \
    X(join_kept_not_tested, cross_join_unfit, wrong) \
    X(join_list_not_tested, cross_join_unfit, wrong) \
    X(join_progress_not_tested, cross_join_unfit, wrong) \
    X(join_declared_not_tested, cross_join_unfit, wrong)

#define CROSS_PLANTS(X) \
    X(cross_open_word_not_tested, cross_open, wrong) \
    X(cross_open_class_k_taken, cross_open, wrong) \
    X(cross_open_class_63_refused, cross_open, wrong) \
    X(cross_open_word_of_64_refused, cross_open, wrong) \
    X(cross_open_word_0_refused, cross_none, wrong) \
    X(cross_open_word_cut, cross_open, wrong) \
    X(cross_open_word_of_32_bits, cross_open, wrong) \
    X(cross_open_word_high_byte_first, cross_open, wrong) \
    X(cross_open_word_not_written, cross_open, wrong) \
    X(cross_open_word_in_progress, cross_open, wrong) \
    X(cross_open_history_short_by_one, cross_open, wrong) \
    X(cross_open_history_not_tested, cross_open, wrong) \
    X(cross_open_history_of_510, cross_open, wrong) \
    X(cross_open_leaves_history, cross_open, wrong) \
    X(cross_open_leaves_last_entry, cross_open, wrong) \
    X(cross_open_clears_all_of_history, cross_open, wrong) \
    X(cross_open_writes_behind_history, cross_open, wrong) \
    X(cross_open_writes_before_history, cross_open, wrong) \
    X(cross_open_refused_clears_history, cross_open, wrong) \
    X(cross_open_leaves_progress, cross_open, wrong) \
    X(cross_open_leaves_kept, cross_open, wrong) \
    X(cross_open_leaves_since, cross_open, wrong) \
    X(cross_fit_declared_not_tested, cross_unfit, wrong) \
    X(cross_fit_declared_class_k, cross_unfit, wrong) \
    X(cross_fit_declared_class_63, cross_unfit, wrong) \
    X(cross_fit_progress_not_tested, cross_unfit, wrong) \
    X(cross_fit_progress_of_any_class, cross_unfit, wrong) \
    X(cross_fit_progress_of_32_bits, cross_unfit, wrong) \
    X(cross_fit_17_in_progress, cross_unfit, wrong) \
    X(cross_fit_any_number_in_progress, cross_unfit, wrong) \
    X(cross_fit_16_refused, cross_unfit, wrong) \
    X(cross_fit_kept_257, cross_unfit, wrong) \
    X(cross_fit_kept_not_tested, cross_unfit, wrong) \
    X(cross_fit_kept_of_16_bits, cross_unfit, wrong) \
    X(cross_fit_kept_of_8_bits, cross_unfit, wrong) \
    X(cross_fit_kept_256_refused, cross_unfit, wrong) \
    X(cross_fit_kept_without_progress_refused, cross_unfit, wrong) \
    X(cross_fit_since_over_kept_refused, cross_elsewhere, wrong) \
    X(cross_fit_since_over_256_refused, cross_elsewhere, wrong) \
    X(cross_fit_since_of_others_refused, cross_elsewhere, wrong) \
    X(cross_fit_held_crosslock_refused, cross_elsewhere, wrong) \
    X(cross_fit_marked_crosslock_refused, cross_elsewhere, wrong) \
    X(cross_fit_r_to_crosslock_refused, cross_elsewhere, wrong) \
    X(cross_fit_s_from_crosslock_refused, cross_elsewhere, wrong) \
    X(cross_fit_entry_of_crosslock_refused, cross_elsewhere, wrong) \
    X(cross_ask_declared_not_tested, cross_unfit, wrong) \
    X(cross_ask_progress_not_tested, cross_unfit, wrong) \
    X(cross_ask_list_not_tested, cross_unfit, wrong) \
    X(cross_ask_kept_not_tested, cross_unfit, wrong) \
    X(cross_ask_refuses_progress, cross_unfit, wrong) \
    X(cross_ask_refuses_kept, cross_unfit, wrong) \
    X(cross_ask_refuses_crosslock, cross_example, wrong) \
    X(cross_ask_desk_of_1398, old_lengths, wrong) \
    X(cross_step_desk_of_1398, old_lengths, wrong) \
    X(cross_open_desk_of_1398, old_lengths, wrong) \
    X(cross_fit_place_25, cross_unfit_history, wrong) \
    X(cross_fit_place_255, cross_unfit_history, wrong) \
    X(cross_fit_entry_of_class_k, cross_unfit_history, wrong) \
    X(cross_fit_entry_of_mode_3, cross_unfit_history, wrong) \
    X(cross_fit_struck_out_with_lock, cross_unfit_history, wrong) \
    X(cross_fit_struck_out_refused, cross_visit_example, wrong) \
    X(cross_fit_entry_of_lock_0_refused, cross_unfit_history, wrong) \
    X(cross_fit_place_24_refused, cross_unfit_history, wrong) \
    X(cross_fit_history_not_tested, cross_unfit_history, wrong) \
    X(cross_fit_first_entry_only, cross_unfit_history, wrong) \
    X(cross_fit_last_entry_not_tested, cross_unfit_history, wrong) \
    X(cross_fit_first_entry_not_tested, cross_unfit_history, wrong) \
    X(cross_fit_all_entries_tested, cross_unfit_history, wrong) \
    X(cross_fit_entry_behind_tested, cross_unfit_history, wrong) \
    X(cross_fit_entries_of_8_bits, cross_unfit_history, wrong) \
    X(cross_history_short_by_one, cross_lengths, wrong) \
    X(cross_history_of_kept_only, cross_lengths, wrong) \
    X(cross_history_after_10, cross_lengths, wrong) \
    X(cross_reads_behind_history, cross_lengths, killed) \
    X(cross_reads_before_history, cross_lengths, killed) \
    X(cross_kind_13_taken, cross_refusal_3, wrong) \
    X(cross_kinds_as_3, cross_refusal_3, wrong) \
    X(cross_release_as_3, cross_refusal_3, wrong) \
    X(cross_mode_taken, cross_refusal_3, wrong) \
    X(cross_mode_of_commit_taken, cross_refusal_3, wrong) \
    X(cross_class_k_as_15, cross_refusal_3, wrong) \
    X(cross_class_k_as_17, cross_refusal_3, wrong) \
    X(cross_mode_of_class_k_as_4, cross_refusal_3, wrong) \
    X(cross_15_not_for_acquires, cross_sorts, wrong) \
    X(cross_15_not_for_tries, cross_sorts, wrong) \
    X(cross_15_not_for_releases, cross_sorts, wrong) \
    X(cross_15_not_for_crosslocks, cross_sorts, wrong) \
    X(cross_15_not_for_commits, cross_sorts, wrong) \
    X(cross_15_not_for_crosslock_releases, cross_sorts, wrong) \
    X(cross_15_of_32_bits, cross_sorts, wrong) \
    X(cross_15_as_3, cross_sorts, wrong) \
    X(cross_15_as_4, cross_sorts, wrong) \
    X(cross_15_as_5_for_releases, cross_sorts, wrong) \
    X(cross_15_as_17, cross_sorts, wrong) \
    X(cross_15_before_3, cross_sorts, wrong) \
    X(cross_15_behind_5, cross_order, wrong) \
    X(cross_15_behind_8, cross_order, wrong) \
    X(cross_15_behind_9, cross_order, wrong) \
    X(cross_15_behind_17, cross_order, wrong) \
    X(cross_15_behind_18, cross_order, wrong) \
    X(cross_15_before_10, cross_order, wrong) \
    X(cross_18_before_16, cross_order, wrong) \
    X(cross_18_before_15, cross_order, wrong) \
    X(cross_19_before_8, cross_order, wrong) \
    X(cross_19_before_15, cross_order, wrong) \
    X(cross_9_before_16, cross_order, wrong) \
    X(cross_9_before_17, cross_order, wrong) \
    X(cross_9_before_18, cross_order, wrong) \
    X(cross_9_before_19, cross_order, wrong) \
    X(cross_9_not_for_crosslocks, cross_order, wrong) \
    X(cross_9_not_for_commits, cross_order, wrong) \
    X(cross_9_not_for_crosslock_releases, cross_order, wrong) \
    X(cross_needs_room, cross_states, wrong) \
    X(cross_commit_needs_room, cross_states, wrong) \
    X(cross_not_in_handlers, cross_states, wrong) \
    X(cross_not_with_hard_off, cross_states, wrong) \
    X(cross_commit_not_in_hard, cross_states, wrong) \
    X(cross_not_counted, cross_example, wrong) \
    X(cross_commit_not_counted, cross_visit_example, wrong) \
    X(cross_release_not_counted, cross_visit_example, wrong) \
    X(cross_marks_left_out, cross_marks, wrong) \
    X(cross_marks_left_out_at_commit, cross_marks, wrong) \
    X(cross_marks_of_task, cross_marks, wrong) \
    X(cross_marks_crosslock, cross_states, wrong) \
    X(cross_search_left_out, cross_marks, wrong) \
    X(cross_search_at_commits_only, cross_marks, wrong) \
    X(cross_takes_from_newest, cross_take, wrong) \
    X(cross_takes_from_oldest, cross_take, wrong) \
    X(cross_takes_from_no_try, cross_take, wrong) \
    X(cross_takes_from_first_20, cross_take, wrong) \
    X(cross_takes_as_er, cross_take, wrong) \
    X(cross_takes_as_en, cross_take, wrong) \
    X(cross_takes_as_sn, cross_take, wrong) \
    X(cross_takes_from_all_frames, cross_take, wrong) \
    X(cross_takes_from_task, cross_take, wrong) \
    X(cross_takes_from_core_0, cross_take, wrong) \
    X(cross_takes_from_nothing, cross_example, wrong) \
    X(cross_takes_back, cross_take, wrong) \
    X(cross_takes_from_crosslocks, cross_take, wrong) \
    X(cross_takes_over_kinds, cross_take, wrong) \
    X(cross_held_too, cross_take, wrong) \
    X(cross_commits_to_crosslocks, cross_commit, wrong) \
    X(cross_commits_tries, cross_commit, wrong) \
    X(cross_commits_held_only, cross_commit, wrong) \
    X(cross_commits_held_too, cross_since, wrong) \
    X(cross_commits_all_cores, cross_commit, wrong) \
    X(cross_commits_all_frames, cross_commit, wrong) \
    X(cross_commits_task_frame, cross_commit, wrong) \
    X(cross_commits_as_en, cross_commit, wrong) \
    X(cross_commits_as_er, cross_commit, wrong) \
    X(cross_commits_reads_as_er, cross_commit, wrong) \
    X(cross_commits_as_s, cross_strong, wrong) \
    X(cross_commits_backwards, cross_example, wrong) \
    X(cross_commits_first_only, cross_commit, wrong) \
    X(cross_commits_last_only, cross_commit, wrong) \
    X(cross_commits_and_ends, cross_commit, wrong) \
    X(cross_commits_and_empties, cross_commit, wrong) \
    X(cross_commits_and_renews, cross_commit, wrong) \
    X(cross_commits_once, cross_commit, wrong) \
    X(cross_commits_of_place_before, cross_frames, wrong) \
    X(cross_commits_of_core_only, cross_frames, wrong) \
    X(cross_commits_nothing, cross_example, wrong) \
    X(cross_commits_before_too, cross_since, wrong) \
    X(cross_commits_behind_one, cross_since, wrong) \
    X(cross_commits_since_first, cross_since, wrong) \
    X(cross_since_kept_as_it_was, cross_since, wrong) \
    X(cross_since_not_written, cross_since, wrong) \
    X(cross_since_cleared_at_release, cross_since, wrong) \
    X(cross_since_of_8_bits, cross_full, wrong) \
    X(cross_since_of_class_0, cross_since, wrong) \
    X(cross_list_of_15, cross_list, wrong) \
    X(cross_list_of_17, cross_list, wrong) \
    X(cross_list_without_end, cross_list, wrong) \
    X(cross_list_by_32_bits, cross_list, wrong) \
    X(cross_list_twice, cross_list, wrong) \
    X(cross_twice_renews, cross_order, wrong) \
    X(cross_commit_of_any, cross_visit_example, wrong) \
    X(cross_release_of_any, cross_visit_example, wrong) \
    X(cross_releases_all, cross_kept, wrong) \
    X(cross_release_empties_at_once, cross_kept, wrong) \
    X(cross_release_never_empties, cross_kept, wrong) \
    X(cross_release_clears_entries, cross_kept, wrong) \
    X(cross_release_commits, cross_commit, wrong) \
    X(cross_release_ends_nothing, cross_visit_example, wrong) \
    X(cross_keeps_tries, cross_visit_example, wrong) \
    X(cross_keeps_always, cross_kept, wrong) \
    X(cross_keeps_releases, cross_kept, wrong) \
    X(cross_keeps_crosslocks, cross_kept, wrong) \
    X(cross_keeps_task_only, cross_visit_example, wrong) \
    X(cross_keeps_handlers_only, cross_example, wrong) \
    X(cross_keeps_core_0_only, cross_example, wrong) \
    X(cross_keeps_new_only, cross_kept, wrong) \
    X(cross_keeps_held_only, cross_visit_example, wrong) \
    X(cross_keeps_read_as_write, cross_kept, wrong) \
    X(cross_keeps_place_of_core, cross_visit_example, wrong) \
    X(cross_keeps_frame_number, cross_example, wrong) \
    X(cross_keeps_turned, cross_example, wrong) \
    X(cross_keeps_at_front, cross_kept, wrong) \
    X(cross_kept_of_8_bits, cross_full, wrong) \
    X(cross_19_at_255, cross_full, wrong) \
    X(cross_19_never, cross_full, wrong) \
    X(cross_19_wraps, cross_full, wrong) \
    X(cross_19_for_tries, cross_full, wrong) \
    X(cross_19_without_progress, cross_full, wrong) \
    X(cross_19_held, cross_full, wrong) \
    X(cross_19_for_crosslocks, cross_full, wrong) \
    X(cross_19_of_16_bits, cross_full, wrong) \
    X(cross_19_closes, cross_full, wrong) \
    X(cross_commits_of_8_bits, cross_full, wrong) \
    X(cross_commits_up_to_255, cross_full, wrong) \
    X(cross_commits_past_kept, cross_entries, wrong) \
    X(cross_visits_of_8_bits, cross_visits, wrong) \
    X(cross_visits_of_16_bits, cross_visits, wrong) \
    X(cross_visits_of_7_bits, cross_visits, wrong) \
    X(cross_visits_never_end, cross_visit_example, wrong) \
    X(cross_visits_of_task_end, cross_nested, wrong) \
    X(cross_visits_soft_never_end, cross_nested, wrong) \
    X(cross_visits_hard_never_end, cross_nested, wrong) \
    X(cross_visits_hard_ends_soft, cross_nested, wrong) \
    X(cross_visits_end_by_entry, cross_visits_kept, wrong) \
    X(cross_visits_end_of_all_cores, cross_nested, wrong) \
    X(cross_visits_end_in_all_frames, cross_nested, wrong) \
    X(cross_visits_end_when_refused, cross_visits_kept, wrong) \
    X(cross_visits_free_room, cross_visits_kept, wrong) \
    X(cross_visits_free_last_room, cross_visits_kept, wrong) \
    X(cross_visits_leave_lock, cross_visit_example, wrong) \
    X(cross_visits_leave_place, cross_visit_example, wrong) \
    X(cross_visits_strike_first, cross_nested, wrong) \
    X(cross_visits_strike_last, cross_nested, wrong) \
    X(cross_visits_strike_behind_kept, cross_nested, wrong) \
    X(cross_visits_strike_in_progress_only, cross_elsewhere, wrong) \
    X(cross_visits_strike_8_bits, cross_visits_kept, wrong) \
    X(cross_number_of_count_before, cross_numbers, wrong) \
    X(cross_number_renewed, cross_numbers, wrong) \
    X(cross_number_not_written, cross_example, wrong) \
    X(cross_number_of_commit_renewed, cross_numbers, wrong) \
    X(cross_number_of_commit_as_1, cross_numbers, wrong) \
    X(cross_number_of_16_bits, cross_numbers, wrong) \
    X(cross_weak_at_crosslock, cross_strong, wrong) \
    X(cross_weak_from_reads, cross_strong, wrong) \
    X(cross_shown_as_hard, cross_example, wrong) \
    X(cross_shown_without_numbers, cross_shown, wrong) \
    X(cross_slip_of_crosslocks_only, cross_shown, wrong) \
    X(cross_elsewhere_held_draws_nothing, cross_elsewhere, wrong) \
    X(cross_elsewhere_marks_ignored, cross_elsewhere, wrong) \
    X(cross_elsewhere_entry_ignored, cross_elsewhere, wrong) \
    X(cross_elsewhere_since_over_kept_as_0, cross_elsewhere, wrong) \
    X(cross_elsewhere_kept_emptied, cross_elsewhere, wrong) \
    X(cross_writes_behind_history, cross_lengths, wrong) \
    X(cross_writes_last_entry, cross_lengths, wrong) \
    X(cross_refused_writes_history, cross_order, wrong) \
    X(cross_refused_writes_progress, cross_order, wrong) \
    X(cross_random_commits_other_core, cross_random, wrong) \
    X(cross_random_strikes_nothing, cross_random, wrong)

#define ENUMERATOR(name, test, how) name,
#define NAME(name, test, how) #name,

enum plant { PLANTS(ENUMERATOR) FEED_PLANTS(ENUMERATOR) right,
             BALANCE_PLANTS(ENUMERATOR) JOIN_PLANTS(ENUMERATOR)
             CROSS_PLANTS(ENUMERATOR) none };
static const char *const names[] = { PLANTS(NAME) FEED_PLANTS(NAME) "right",
                                     BALANCE_PLANTS(NAME) JOIN_PLANTS(NAME)
                                     CROSS_PLANTS(NAME) "none" };

uint8_t real_feed_start(uint8_t *, size_t);
uint8_t real_feed(uint8_t *, size_t, uint8_t *, size_t, uint8_t *, size_t,
                  uint8_t *, size_t, uint8_t *, size_t, uint8_t *, size_t,
                  const uint8_t *, size_t, uint64_t *);
uint8_t real_feed_end(uint8_t *, size_t, uint8_t *, size_t, uint8_t *, size_t,
                      uint8_t *, size_t, uint8_t *, size_t, uint8_t *, size_t,
                      uint64_t *);
uint8_t real_open(uint64_t, uint64_t, uint8_t *, size_t, uint8_t *, size_t,
                  uint8_t *, size_t, uint8_t *, size_t);
uint8_t real_step(uint8_t *, size_t, uint8_t *, size_t, uint8_t *, size_t,
                  uint8_t *, size_t, uint8_t *, size_t, const uint8_t *,
                  size_t);
uint8_t real_ask(const uint8_t *, size_t, const uint8_t *, size_t,
                 const uint8_t *, size_t, uint64_t, uint64_t *, uint32_t *);
uint8_t real_balance(const uint8_t *, size_t, int32_t *);
uint8_t real_join(const uint8_t *, size_t, const uint8_t *, size_t,
                  const uint8_t *, size_t, const uint8_t *, size_t,
                  const uint8_t *, size_t, const uint8_t *, size_t,
                  uint8_t *, size_t, uint8_t *, size_t, uint8_t *, size_t,
                  uint8_t *, size_t);

static int plant_number = -1;

static void find_plant(void)
{
    const char *name = getenv("PLANT");

    for (plant_number = 0;
         name == NULL || strcmp(names[plant_number], name) != 0; plant_number++)
        if (name == NULL || plant_number == none)
            abort();
}

static inline enum plant plant(void)
{
    if (plant_number < 0)
        find_plant();
    return (enum plant)plant_number;
}

static int is_either(enum plant one, enum plant other)
{
    return plant() == one || plant() == other;
}

/* Reads a byte, whether or not it may. */
static void peek(const uint8_t *at)
{
    *(const volatile uint8_t *)at;
}

/* ------------------------------------------------------------ on the desk */

enum { DEPTHS_AT = PLUNGEROWL_DEPTHS_AT, MARKS_AT = PLUNGEROWL_MARKS_AT,
       HELD_AT = PLUNGEROWL_HELD_AT, ORIGINS_AT = PLUNGEROWL_ORIGINS_AT,
       ACCEPTED_AT = PLUNGEROWL_ACCEPTED_AT, NUMBER = PLUNGEROWL_NUMBER_SIZE,
       DEPTH = PLUNGEROWL_MAX_DEPTH, FRAMES = PLUNGEROWL_FRAMES,
       PLACES = PLUNGEROWL_PLACES, DESK_SIZE = PLUNGEROWL_DESK_SIZE,
       TRY = PLUNGEROWL_TRY_EXCLUSIVE };

/* The origin bit with an index over all places. */
static int bit_at(const uint8_t *desk, unsigned index)
{
    return desk[ORIGINS_AT + index / 8] >> index % 8 & 1;
}

static void put_bit(uint8_t *desk, unsigned index, int bit)
{
    uint8_t *byte = desk + ORIGINS_AT + index / 8;

    *byte = (uint8_t)((*byte & ~(1u << index % 8))
                      | (unsigned)bit << index % 8);
}

/* A number of four bytes, low byte first. */
static uint32_t number_at(const uint8_t *at)
{
    return at[0] | (uint32_t)at[1] << 8 | (uint32_t)at[2] << 16
           | (uint32_t)at[3] << 24;
}

static void put_number(uint8_t *at, uint32_t number)
{
    unsigned i;

    for (i = 0; i < NUMBER; i++)
        at[i] = (uint8_t)(number >> 8 * i);
}

/* The high byte first. */
static void turn_number(uint8_t *at)
{
    uint32_t number = number_at(at);
    unsigned i;

    for (i = 0; i < NUMBER; i++)
        at[NUMBER - 1 - i] = (uint8_t)(number >> 8 * i);
}

static unsigned current_frame(const uint8_t *desk, unsigned core)
{
    unsigned state = desk[PLUNGEROWL_STATES_AT + core];

    return 3 * core + (state <= 3 ? 0 : state <= 5 ? 1 : 2);
}

/* The marks of a mode in a state, safe ones and unsafe ones. */
static unsigned safe_of(unsigned state, unsigned mode)
{
    unsigned letter = mode == PLUNGEROWL_RECURSIVE_READ ? 2 : 1;

    return state >= 6 ? letter : state >= 4 ? 16 * letter : 0;
}

static unsigned unsafe_of(unsigned state, unsigned mode)
{
    unsigned letter = mode == PLUNGEROWL_EXCLUSIVE ? 4 : 8;

    return state == 0 ? 17 * letter : state == 1 || state == 4 ? letter : 0;
}

static unsigned kind_of(unsigned held, unsigned acquired)
{
    return (held == PLUNGEROWL_EXCLUSIVE ? 1u : 4u)
           << (acquired != PLUNGEROWL_RECURSIVE_READ);
}

/* ---------------------------------------------------------- the fit test */

/* A 1 where no held lock stands. */
static int has_stray_origin(const uint8_t *desk)
{
    unsigned i;

    for (i = 0; i < PLACES; i++)
        if (bit_at(desk, i) && i % DEPTH >= desk[DEPTHS_AT + i / DEPTH])
            return 1;
    return 0;
}

/* Whether the numbers of the first pairs are unfit. */
static int has_unfit_number(const uint8_t *sheet, const uint8_t *seen,
                            unsigned pairs)
{
    unsigned i;

    for (i = 0; i < pairs; i++)
        if ((sheet[i] == 0) != (number_at(seen + NUMBER * i) == 0))
            return 1;
    return 0;
}

/* The highest number of all pairs, and whether it is above the count, which is
 * fit. */
static uint32_t highest_number(const uint8_t *seen, unsigned k)
{
    uint32_t highest = 0;
    unsigned i;

    for (i = 0; i < k * k; i++)
        if (number_at(seen + NUMBER * i) > highest)
            highest = number_at(seen + NUMBER * i);
    return highest;
}

static int has_number_above(const uint8_t *desk, const uint8_t *seen)
{
    return highest_number(seen, desk[0]) > number_at(desk + ACCEPTED_AT);
}

/* A clause about a pair is not seen. */
static int pair_missed(unsigned pair, unsigned pairs, unsigned kinds,
                       uint32_t number, uint32_t count)
{
    switch (plant()) {
    case fit_number_0_of_first: return pair == 0 && kinds && !number;
    case fit_number_0_of_last: return pair + 1 == pairs && kinds && !number;
    case fit_number_0_with_sr: return kinds == PLUNGEROWL_SR && !number;
    case fit_number_0_but_of_first: return pair > 0 && kinds && !number;
    case fit_number_without_kinds: return !kinds && number && number == count;
    case fit_high_number_without_kinds:
        return !kinds && number && number % 65536 == 0;
    default: return 0;
    }
}

static int number_missed(const uint8_t *desk, const uint8_t *sheet,
                         const uint8_t *seen)
{
    unsigned pairs = desk[0] * desk[0], i;
    uint32_t count = number_at(desk + ACCEPTED_AT);

    if (plant() == fit_numbers_not_tested)
        return has_unfit_number(sheet, seen, pairs);
    if (plant() == fit_number_of_last_pair)
        return has_unfit_number(sheet, seen, pairs)
               && !has_unfit_number(sheet, seen, pairs - 1);
    for (i = 0; i < pairs; i++)
        if (pair_missed(i, pairs, sheet[i], number_at(seen + NUMBER * i),
                        count))
            return 1;
    return 0;
}

/* A number above the count is refused, as it was before benches were joined. */
static int ties_number(unsigned pair, unsigned pairs, uint32_t number,
                       uint32_t count)
{
    int above = number > count;

    switch (plant()) {
    case fit_tie_kept:
    case fit_tie_kept_in_steps: return above;
    case fit_tie_kept_by_one: return above && number - count == 1;
    case fit_tie_kept_for_count_0:
    case fit_tie_kept_for_joined: return above && count == 0;
    case fit_tie_kept_but_for_count_0: return above && count > 0;
    case fit_tie_kept_by_high_byte:
        return above && (number & 0xFFFFFF) <= (count & 0xFFFFFF);
    case fit_tie_kept_with_high_count: return above && count > INT32_MAX;
    case fit_tie_kept_for_last_pair: return above && pair + 1 == pairs;
    case fit_highest_number_refused: return number == UINT32_MAX;
    default: return 0;
    }
}

/* Fit numbers that a wrong version refuses. */
static int refuses_number(const uint8_t *desk, const uint8_t *sheet,
                          size_t sheet_len, const uint8_t *seen,
                          size_t seen_len)
{
    unsigned pairs = desk[0] * desk[0], i;
    uint32_t count = number_at(desk + ACCEPTED_AT);

    if (plant() > fit_number_as_count_refused_asked)
        return 0; /* saves much time: none of those below */
    for (i = 0; i < pairs; i++) {
        uint8_t turned[NUMBER];
        uint32_t number = number_at(seen + NUMBER * i);

        put_number(turned, number);
        turn_number(turned);
        if (ties_number(i, pairs, number, count))
            return 1;
        if (number != 0
            && ((plant() == fit_number_as_count_refused && number == count)
                || (plant() == fit_number_1_refused && number == 1)
                || (plant() == fit_number_low_byte_0_refused
                    && number % 256 == 0)
                || (plant() == fit_number_high_byte_first
                    && number_at(turned) > count)
                || (plant() == fit_number_signed && number <= INT32_MAX
                    && count > INT32_MAX)))
            return 1;
    }
    switch (plant()) {
    case fit_number_behind_last_pair:
        return seen_len >= NUMBER * (pairs + (size_t)1) && sheet_len > pairs
               && sheet[pairs] == 0 && number_at(seen + NUMBER * pairs) == 1;
    case fit_kinds_behind_last_pair:
        return sheet_len > pairs && sheet[pairs] == PLUNGEROWL_ER;
    case fit_numbers_of_64_classes:
        return sheet_len >= 64 * 64 && seen_len >= NUMBER * 64 * 64
               && has_unfit_number(sheet, seen, 64 * 64);
    case fit_count_without_numbers_refused:
        for (i = 0; i < pairs && sheet[i] == 0; i++)
            ;
        return i == pairs && count > 100000;
    default: return 0;
    }
}

/* A depth over the limit. */
static int has_depth_over(const uint8_t *desk, unsigned limit)
{
    unsigned i;

    for (i = 0; i < FRAMES; i++)
        if (desk[DEPTHS_AT + i] > limit)
            return 1;
    return 0;
}

/* At a place from the given one on: a lock that is unfit, or a byte or an
 * origin bit where no lock stands. */
enum at_place { UNFIT_LOCK, UNUSED_BYTE, STRAY_BIT };

static int has_from(const uint8_t *desk, unsigned from, enum at_place what)
{
    unsigned i;

    for (i = 0; i < PLACES; i++) {
        int stands = i % DEPTH < desk[DEPTHS_AT + i / DEPTH];
        unsigned held = desk[HELD_AT + i];

        if (i % DEPTH >= from
            && (what == UNFIT_LOCK ? stands && (held % 64 >= desk[0]
                                                || held >= 192)
                : what == UNUSED_BYTE ? !stands && held != 0
                : !stands && bit_at(desk, i)))
            return 1;
    }
    return 0;
}

/* A clause of the fit test is not seen, most of them at one place (K is 8). */
static int clause_missed(const uint8_t *desk, const uint8_t *sheet)
{
    const uint8_t *held = desk + HELD_AT;
    const uint8_t *depths = desk + DEPTHS_AT;

    switch (plant()) {
    case fit_k_65: return desk[0] == 65;
    case fit_closed_255: return desk[1] == 255;
    case fit_state_9: return desk[2 + 7] == 9;
    case fit_depth_over: return depths[FRAMES - 1] == DEPTH + 1;
    case fit_class_over: return depths[FRAMES - 1] == DEPTH
                                && held[PLACES - 1] == 8;
    case fit_mode_3: return depths[0] == DEPTH && held[0] == 192
                            && !bit_at(desk, 0);
    case fit_mode_3_of_a_try: return depths[0] == DEPTH && held[0] >= 192
                                     && bit_at(desk, 0);
    case fit_unused_byte: return depths[0] == DEPTH - 1 && held[DEPTH - 1] != 0;
    case fit_soft_in_6: return depths[1] == 1 && desk[2] == 6;
    case fit_hard_in_5: return depths[2] == 1 && desk[2] == 5;
    case fit_mark_of_63: return desk[MARKS_AT + 63] == 4;
    case fit_soft_unsafe_e: return (desk[MARKS_AT] & 68) == 64;
    case fit_soft_unsafe_s: return (desk[MARKS_AT + 7] & 136) == 128;
    case fit_sheet_16: return sheet[63] == 16;
    case fit_first_origin: return depths[0] == 0 && bit_at(desk, 0);
    case fit_last_origin: return depths[FRAMES - 1] == DEPTH - 1
                                 && bit_at(desk, PLACES - 1);
    case fit_origin_of_frame_1: return depths[1] == 0 && bit_at(desk, DEPTH);
    case fit_origin_at_depth: return depths[4] > 0 && depths[4] < DEPTH
                                     && bit_at(desk, 4 * DEPTH + depths[4]);
    case fit_no_origins: return has_stray_origin(desk);
    case fit_depth_limit_49: return !has_depth_over(desk, 49)
                                    && has_depth_over(desk, 48);
    case fit_depth_limit_64: return !has_depth_over(desk, 64)
                                    && has_depth_over(desk, 48);
    case fit_held_from_20: return has_from(desk, 20, UNFIT_LOCK);
    case fit_held_from_32: return has_from(desk, 32, UNFIT_LOCK);
    case fit_held_at_47: return has_from(desk, 47, UNFIT_LOCK);
    case fit_unused_from_20: return has_from(desk, 20, UNUSED_BYTE);
    case fit_unused_from_32: return has_from(desk, 32, UNUSED_BYTE);
    case fit_unused_at_47: return has_from(desk, 47, UNUSED_BYTE);
    case fit_origins_from_20: return has_from(desk, 20, STRAY_BIT);
    case fit_origins_from_32: return has_from(desk, 32, STRAY_BIT);
    case fit_origins_at_47: return has_from(desk, 47, STRAY_BIT);
    default: return 0;
    }
}

/* --------------------------------------------- what an accepted record did */

struct call {
    uint8_t old_desk[DESK_SIZE]; /* before the record */
    uint8_t old_sheet[PLUNGEROWL_SHEET_SIZE(PLUNGEROWL_MAX_CLASSES)];
    uint8_t old_seen[PLUNGEROWL_SEEN_SIZE(PLUNGEROWL_MAX_CLASSES)];
    uint8_t old_slip[PLUNGEROWL_SLIP_SIZE(PLUNGEROWL_MAX_CLASSES)];
    uint8_t *desk, *sheet, *seen, *history; /* after it */
    size_t seen_len, history_len;
    unsigned k, core, kind, class_, mode;
    unsigned old_frame; /* the current frame before the record */
};

/* An acquire is wrong in the held byte, the depth or the origin bit. */
static void spoil_acquire(struct call *c)
{
    unsigned place = c->old_desk[DEPTHS_AT + c->old_frame];
    unsigned index = DEPTH * c->old_frame + place;
    uint8_t *held = c->desk + HELD_AT + index;
    int tried = c->mode >= TRY;

    switch (plant()) {
    case try_not_counted:
        if (tried && place == DEPTH - 1) {
            c->desk[DEPTHS_AT + c->old_frame]--;
            *held = 0;
            put_bit(c->desk, index, 0);
        }
        break;
    case try_held_as_mode_3:
        if (tried)
            *held = (uint8_t)(c->class_ + 192);
        break;
    case try_held_as_exclusive:
        if (tried)
            *held = (uint8_t)c->class_;
        break;
    case try_reads_exchanged:
        if (c->mode > TRY)
            *held ^= 192;
        break;
    case origin_never_set: put_bit(c->desk, index, 0); break;
    case origin_always_set: put_bit(c->desk, index, 1); break;
    case origin_highest_bit_first:
        put_bit(c->desk, index, 0);
        put_bit(c->desk, index ^ 7, tried);
        break;
    case origin_by_place_first:
        put_bit(c->desk, index, 0);
        put_bit(c->desk, FRAMES * place + c->old_frame, tried);
        break;
    case origin_clears_its_byte:
        c->desk[ORIGINS_AT + index / 8] &= (uint8_t)(1u << index % 8);
        break;
    default: break;
    }
}

/* A dependency is drawn that should not be, or the other way round. */
static void spoil_sheet(struct call *c)
{
    const uint8_t *held = c->old_desk + HELD_AT + DEPTH * c->old_frame;
    unsigned depth = c->old_desk[DEPTHS_AT + c->old_frame];
    unsigned i;

    for (i = 0; i < depth; i++) {
        uint8_t *byte = c->sheet + held[i] % 64 * c->k + c->class_;
        uint8_t old = c->old_sheet[held[i] % 64 * c->k + c->class_];
        unsigned kind = kind_of(held[i] / 64, c->mode % TRY);
        int from_try = bit_at(c->old_desk, DEPTH * c->old_frame + i);

        if (c->mode >= TRY) {
            if (plant() == dependency_to_try
                || (plant() == dependency_to_try_of_its_class
                    && held[i] % 64 == c->class_))
                *byte |= (uint8_t)kind;
        } else if (plant() == dependency_from_try_left_out && from_try) {
            *byte = old;
        } else if (plant() == dependency_from_try_shared && from_try) {
            *byte = (uint8_t)(old | kind_of(1, c->mode));
        }
    }
}

/* A frame as it was, without the lock at the place; its depth is left. */
static void remove_at(struct call *c, unsigned frame, unsigned place)
{
    unsigned first = DEPTH * frame;
    unsigned i;

    memcpy(c->desk + HELD_AT + first, c->old_desk + HELD_AT + first, DEPTH);
    memcpy(c->desk + ORIGINS_AT, c->old_desk + ORIGINS_AT, PLACES / 8);
    for (i = first + place; i + 1 < first + DEPTH; i++) {
        c->desk[HELD_AT + i] = c->desk[HELD_AT + i + 1];
        put_bit(c->desk, i, bit_at(c->desk, i + 1));
    }
    c->desk[HELD_AT + i] = 0;
    put_bit(c->desk, i, 0);
}

static void release_at(struct call *c, unsigned place)
{
    remove_at(c, c->old_frame, place);
}

/* The mode in which the lock with an index over all places was acquired. */
static unsigned mode_at(const uint8_t *desk, unsigned index)
{
    return desk[HELD_AT + index] / 64u + (bit_at(desk, index) ? TRY : 0);
}

/* A release takes another lock of the class. */
static void spoil_choice(struct call *c)
{
    const uint8_t *held = c->old_desk + HELD_AT + DEPTH * c->old_frame;
    unsigned depth = c->old_desk[DEPTHS_AT + c->old_frame];
    unsigned i;

    for (i = 0; i < depth; i++) {
        int from_try = bit_at(c->old_desk, DEPTH * c->old_frame + i);

        if (held[i] % 64 != c->class_)
            continue;
        if (plant() == release_takes_oldest) {
            release_at(c, i);
            return;
        }
        if (from_try == (plant() == release_takes_try_first))
            release_at(c, i);
    }
}

/* A release leaves other origin bits. */
static void spoil_bits(struct call *c)
{
    const uint8_t *held = c->old_desk + HELD_AT + DEPTH * c->old_frame;
    unsigned first = DEPTH * c->old_frame;
    unsigned last = first + c->old_desk[DEPTHS_AT + c->old_frame] - 1;
    unsigned at = last;
    unsigned i;

    while (held[at - first] % 64 != c->class_)
        at--;
    switch (plant()) {
    case release_of_no_try_moves_no_bits:
        if (bit_at(c->old_desk, at))
            break;
        /* fall through */
    case release_moves_no_bits:
        for (i = at; i < last; i++)
            put_bit(c->desk, i, bit_at(c->old_desk, i));
        break;
    case release_moves_next_frame_in:
        if (last == first + DEPTH - 1 && last + 1 < PLACES)
            put_bit(c->desk, last, bit_at(c->old_desk, last + 1));
        break;
    case release_moves_whole_region:
        for (i = at; i < PLACES; i++)
            put_bit(c->desk, i, i + 1 < PLACES && bit_at(c->old_desk, i + 1));
        break;
    case release_leaves_last_bit:
        put_bit(c->desk, last, bit_at(c->old_desk, last));
        break;
    case release_loses_bit_between_bytes:
        for (i = at; i < last; i++)
            if (i % 8 == 7)
                put_bit(c->desk, i, 0);
        break;
    case release_moves_bits_below:
        for (i = first; i < at; i++)
            put_bit(c->desk, i, bit_at(c->old_desk, i + 1));
        break;
    default: break;
    }
}

/* Whether a lock of the frame counts as a try, where it may make its class
 * safe, by a wrong rule. */
static int is_try_by(const struct call *c, unsigned frame, unsigned place)
{
    const uint8_t *held = c->desk + HELD_AT + DEPTH * frame;
    unsigned depth = c->desk[DEPTHS_AT + frame];
    unsigned i;

    if (plant() == safe_by_place_above)
        return place + 1 < depth && bit_at(c->desk, DEPTH * frame + place + 1);
    for (i = 0; i < depth; i++) {
        if (plant() != safe_by_frame && held[i] % 64 != held[place] % 64)
            continue;
        if (plant() == safe_by_oldest_of_class)
            return bit_at(c->desk, DEPTH * frame + i);
        if (bit_at(c->desk, DEPTH * frame + i))
            return 1;
    }
    return 0;
}

/* The marks that a held lock adds by a wrong rule. */
static unsigned wrong_marks(const struct call *c, unsigned frame,
                            unsigned place)
{
    unsigned state = c->desk[PLUNGEROWL_STATES_AT + c->core];
    unsigned mode = c->desk[HELD_AT + DEPTH * frame + place] / 64;
    unsigned safe = safe_of(state, mode), unsafe = unsafe_of(state, mode);
    int tried = bit_at(c->desk, DEPTH * frame + place);
    int at_once = c->kind == PLUNGEROWL_ACQUIRE
                  && place + 1u == c->desk[DEPTHS_AT + frame];

    switch (plant()) {
    case safe_by_class:
    case safe_by_oldest_of_class:
    case safe_by_frame:
    case safe_by_place_above:
        return unsafe | (is_try_by(c, frame, place) ? 0 : safe);
    default: break;
    }
    if (!tried)
        return safe | unsafe;
    switch (plant()) {
    case try_safe_at_once: return unsafe | (at_once ? safe : 0);
    case try_safe_later: return unsafe | (at_once ? 0 : safe);
    case try_safe_after_release:
        return unsafe | (c->kind == PLUNGEROWL_RELEASE ? safe : 0);
    case try_soft_safe_in_4: return unsafe | (state == 4 ? safe : 0);
    case try_hard_safe_in_8: return unsafe | (state == 8 ? safe : 0);
    case try_never_unsafe: return 0;
    case try_unsafe_only_at_once: return at_once ? unsafe : 0;
    case try_not_unsafe_in_4: return state == 4 ? 0 : unsafe;
    case try_unsafe_as_read:
        return unsafe_of(state, PLUNGEROWL_RECURSIVE_READ);
    default: return unsafe;
    }
}

static void spoil_marks(struct call *c)
{
    unsigned frame = current_frame(c->desk, c->core);
    unsigned i;

    memcpy(c->desk + MARKS_AT, c->old_desk + MARKS_AT, PLUNGEROWL_MAX_CLASSES);
    for (i = 0; i < c->desk[DEPTHS_AT + frame]; i++)
        c->desk[MARKS_AT + c->desk[HELD_AT + DEPTH * frame + i] % 64]
            |= (uint8_t)wrong_marks(c, frame, i);
}

static void spoil_accepted(struct call *c)
{
    if (c->kind == PLUNGEROWL_ACQUIRE) {
        spoil_acquire(c);
        spoil_sheet(c);
    }
    if (c->kind == PLUNGEROWL_RELEASE) {
        if (plant() >= release_takes_oldest
            && plant() <= release_takes_try_first)
            spoil_choice(c);
        if (plant() >= release_moves_no_bits
            && plant() <= release_of_no_try_moves_no_bits)
            spoil_bits(c);
    }
    if (plant() == event_clears_origins && c->kind >= PLUNGEROWL_HARD_ON)
        put_bit(c->desk, DEPTH * c->old_frame, 0);
    if (plant() >= try_safe_at_once && plant() <= safe_by_place_above)
        spoil_marks(c);
}

/* ------------------------------------------------------- frames of 48 locks */

/* An acquire that a wrong version refuses with 8. */
static int is_full_early(const struct call *c)
{
    const uint8_t *depths = c->old_desk + DEPTHS_AT;
    unsigned depth = depths[c->old_frame];

    if (c->kind != PLUNGEROWL_ACQUIRE)
        return 0;
    switch (plant()) {
    case depth_8_at_20: return depth >= 20;
    case depth_8_at_32: return depth >= 32;
    case depth_8_at_47: return depth >= 47;
    case depth_8_at_20_in_handlers: return depth >= 20 && c->old_frame % 3 > 0;
    case depth_8_at_20_for_tries: return depth >= 20 && c->mode >= TRY;
    case depth_8_by_core:
        return depths[3 * c->core] + depths[3 * c->core + 1]
               + depths[3 * c->core + 2] >= DEPTH;
    default: return 0;
    }
}

/* An acquire at full depth that a wrong version accepts. */
static int is_full_late(const struct call *c)
{
    switch (plant()) {
    case depth_8_at_49: return 1;
    case depth_8_at_49_for_tries: return c->mode >= TRY;
    case depth_8_at_49_in_handlers: return c->old_frame % 3 > 0;
    case depth_8_at_49_of_last_frame: return c->old_frame == FRAMES - 1;
    default: return 0;
    }
}

/* A depth that a wrong version finds unfit. */
static int is_unfit_early(const uint8_t *desk)
{
    switch (plant()) {
    case fit_depth_limit_20: return has_depth_over(desk, 20);
    case fit_depth_limit_32: return has_depth_over(desk, 32);
    case fit_depth_limit_47: return has_depth_over(desk, 47);
    default: return 0;
    }
}

/* How many places of a frame a wrong version looks at. */
static unsigned places_looked_at(void)
{
    switch (plant()) {
    case draws_from_first_20: case marks_first_20: case newest_of_first_20:
    case remove_moves_first_20: case origins_move_first_20:
    case origin_lost_from_20: return 20;
    case draws_from_first_32: case marks_first_32: case newest_of_first_32:
    case remove_moves_first_32: case origins_move_first_32:
    case origin_lost_from_32: return 32;
    case origins_move_first_40: return 40;
    case draws_from_first_46: case remove_moves_first_46: return 46;
    case marks_first_47: case newest_of_first_47: return 47;
    default: return DEPTH;
    }
}

/* The origin bit of an acquired lock, or its byte, elsewhere. */
static void put_elsewhere(struct call *c, unsigned place)
{
    unsigned index = DEPTH * c->old_frame + place;
    uint8_t *held = c->desk + HELD_AT;
    uint8_t byte = held[index];
    int tried = c->mode >= TRY;
    unsigned stride = 0, other;

    switch (plant()) {
    case origin_stride_20: case held_stride_20: stride = 20; break;
    case origin_stride_40: stride = 40; break;
    case origin_stride_47: case held_stride_47: stride = 47; break;
    case origin_stride_49: case held_stride_49: stride = 49; break;
    case origin_stride_64: stride = 64; break;
    default: break;
    }
    other = stride * c->old_frame + place;
    if (plant() >= held_stride_20 && plant() <= held_stride_49) {
        held[index] = 0;
        held[other] = byte;
    } else if (stride > 0) {
        put_bit(c->desk, index, 0);
        if (other < PLACES)
            put_bit(c->desk, other, tried);
    }
    if (plant() == origin_of_32_bits && place >= 32 && tried) {
        put_bit(c->desk, index, 0);
        put_bit(c->desk, index - 32, 1);
    }
    if (is_either(origin_lost_from_20, origin_lost_from_32)
        && place >= places_looked_at())
        put_bit(c->desk, index, 0);
    if (plant() == origin_clears_next_frame && place == DEPTH - 1
        && index + 1 < PLACES)
        put_bit(c->desk, index + 1, 0);
    if (plant() == origin_clears_frame_before && place == 0 && index > 0)
        put_bit(c->desk, index - 1, 0);
}

/* Dependencies from the first places only. */
static void draw_again(struct call *c, unsigned depth)
{
    const uint8_t *held = c->old_desk + HELD_AT + DEPTH * c->old_frame;
    uint32_t count = number_at(c->desk + ACCEPTED_AT);
    unsigned i;

    memcpy(c->sheet, c->old_sheet, PLUNGEROWL_SHEET_SIZE(c->k));
    memcpy(c->seen, c->old_seen, PLUNGEROWL_SEEN_SIZE(c->k));
    for (i = 0; i < depth && i < places_looked_at() && c->mode < TRY; i++) {
        unsigned pair = held[i] % 64 * c->k + c->class_;

        c->sheet[pair] |= (uint8_t)kind_of(held[i] / 64, c->mode);
        if (number_at(c->seen + NUMBER * pair) == 0)
            put_number(c->seen + NUMBER * pair, count);
    }
}

static void mark_again(struct call *c)
{
    unsigned frame = current_frame(c->desk, c->core), i;
    unsigned state = c->desk[PLUNGEROWL_STATES_AT + c->core];

    memcpy(c->desk + MARKS_AT, c->old_desk + MARKS_AT, PLUNGEROWL_MAX_CLASSES);
    for (i = 0; i < c->desk[DEPTHS_AT + frame] && i < places_looked_at(); i++) {
        unsigned held = c->desk[HELD_AT + DEPTH * frame + i];

        c->desk[MARKS_AT + held % 64]
            |= (uint8_t)(unsafe_of(state, held / 64)
                         | (bit_at(c->desk, DEPTH * frame + i) ? 0
                            : safe_of(state, held / 64)));
    }
}

/* A release that looks at the first places only, or moves no others; 0 if it
 * finds no lock that fits. */
static int release_again(struct call *c, unsigned depth)
{
    unsigned first = DEPTH * c->old_frame, limit = places_looked_at();
    const uint8_t *held = c->old_desk + HELD_AT + first;
    unsigned at = depth, i;

    if (plant() >= newest_of_first_20 && plant() <= newest_of_first_47) {
        for (i = 0; i < depth && i < limit; i++)
            if (held[i] % 64 == c->class_)
                at = i;
        if (at == depth || mode_at(c->old_desk, first + at) != c->mode)
            return 0;
        release_at(c, at);
        return 1;
    }
    while (held[--at] % 64 != c->class_)
        ;
    if (plant() >= remove_moves_first_20 && plant() <= remove_moves_first_46)
        for (i = at < limit ? limit : at; i + 1 < depth; i++)
            c->desk[HELD_AT + first + i] = held[i];
    if (plant() >= origins_move_first_20 && plant() <= origins_move_first_40)
        for (i = at < limit ? limit : at; i + 1 < depth; i++)
            put_bit(c->desk, first + i, bit_at(c->old_desk, first + i));
    if (plant() == origins_shift_32_bits && at < 32 && depth > 32)
        put_bit(c->desk, first + 31, 0);
    if (plant() == origins_move_next_frame_in && depth == DEPTH
        && first + DEPTH < PLACES)
        put_bit(c->desk, first + DEPTH - 1, bit_at(c->old_desk, first + DEPTH));
    return 1;
}

/* All as it was before the record. */
static uint8_t take_back(struct call *c, uint8_t *slip, uint8_t answer)
{
    memcpy(c->desk, c->old_desk, DESK_SIZE);
    memcpy(c->sheet, c->old_sheet, PLUNGEROWL_SHEET_SIZE(c->k));
    memcpy(c->seen, c->old_seen, PLUNGEROWL_SEEN_SIZE(c->k));
    memcpy(slip, c->old_slip, PLUNGEROWL_SLIP_SIZE(c->k));
    return answer;
}

/* What a wrong version makes of a step in a deep frame; gives the answer. */
static uint8_t spoil_deep(struct call *c, size_t desk_len, uint8_t *slip,
                          uint8_t answer)
{
    unsigned depth = c->old_desk[DEPTHS_AT + c->old_frame];
    uint8_t number[NUMBER];

    if (answer == PLUNGEROWL_BAD_CLASS && plant() == depth_8_before_4
        && c->kind == PLUNGEROWL_ACQUIRE && depth == DEPTH)
        return PLUNGEROWL_FRAME_FULL;
    if (answer == PLUNGEROWL_FRAME_FULL && plant() == depth_9_before_8
        && number_at(c->desk + ACCEPTED_AT) == UINT32_MAX)
        return PLUNGEROWL_COUNT_FULL;
    if (answer == PLUNGEROWL_FRAME_FULL && is_full_late(c))
        return PLUNGEROWL_OK;
    if (answer > PLUNGEROWL_FAULT)
        return answer;
    if (is_unfit_early(c->old_desk))
        return take_back(c, slip, PLUNGEROWL_UNFIT);
    if (is_full_early(c))
        return take_back(c, slip, PLUNGEROWL_FRAME_FULL);
    if (c->kind == PLUNGEROWL_ACQUIRE) {
        put_elsewhere(c, depth);
        if (plant() >= draws_from_first_20 && plant() <= draws_from_first_46)
            draw_again(c, depth);
    }
    if (c->kind == PLUNGEROWL_RELEASE && !release_again(c, depth))
        return take_back(c, slip, PLUNGEROWL_NOT_HELD);
    if (plant() >= marks_first_20 && plant() <= marks_first_47)
        mark_again(c);
    memcpy(number, c->desk + ACCEPTED_AT, NUMBER);
    if (is_either(count_at_638, count_at_end_of_buffer)) {
        memcpy(c->desk + ACCEPTED_AT, c->old_desk + ACCEPTED_AT, NUMBER);
        memcpy(c->desk + (plant() == count_at_638 ? 638 : desk_len - NUMBER),
               number, NUMBER);
    }
    return answer;
}

/* A desk of 642 bytes as it was before, with 20 locks in a frame, made into one
 * of now, and back. */
static void turn_desk(uint8_t *old, uint8_t *now, int back)
{
    unsigned frame, place;

    if (!back)
        memset(now, 0, DESK_SIZE);
    memcpy(back ? old : now, back ? now : old, HELD_AT);
    memcpy(back ? old + 638 : now + ACCEPTED_AT,
           back ? now + ACCEPTED_AT : old + 638, NUMBER);
    for (frame = 0; frame < FRAMES; frame++) {
        for (place = 0; place < 20; place++) {
            unsigned was = 20 * frame + place, is = DEPTH * frame + place;
            uint8_t *byte = old + 578 + was / 8;

            if (back) {
                old[HELD_AT + was] = now[HELD_AT + is];
                *byte = (uint8_t)((*byte & ~(1u << was % 8))
                                  | (unsigned)bit_at(now, is) << was % 8);
            } else {
                now[HELD_AT + is] = old[HELD_AT + was];
                put_bit(now, is, *byte >> was % 8 & 1);
            }
        }
    }
}

/* ------------------------------------------------------ which releases fit */

enum { NO_PLACE = PLUNGEROWL_MAX_DEPTH };

/* The locks of a class in a frame: how many there are and how many have the
 * mode; the places of the newest and the oldest, and of those with the mode. */
struct found {
    unsigned count, fitting, newest, oldest, newest_fit, oldest_fit;
};

static struct found find_locks(const uint8_t *desk, unsigned frame,
                               unsigned class_, unsigned mode)
{
    struct found f = { 0, 0, NO_PLACE, NO_PLACE, NO_PLACE, NO_PLACE };
    unsigned i;

    for (i = 0; i < desk[DEPTHS_AT + frame] && i < DEPTH; i++) {
        unsigned index = DEPTH * frame + i;

        if (desk[HELD_AT + index] % 64 != class_)
            continue;
        f.count++;
        f.newest = i;
        if (f.oldest == NO_PLACE)
            f.oldest = i;
        if (mode_at(desk, index) != mode)
            continue;
        f.fitting++;
        f.newest_fit = i;
        if (f.oldest_fit == NO_PLACE)
            f.oldest_fit = i;
    }
    return f;
}

/* Whether a lock of the class in one of the frames has the mode. */
static int fits_in(const struct call *c, unsigned from, unsigned to)
{
    unsigned frame;

    for (frame = from; frame < to; frame++)
        if (find_locks(c->old_desk, frame, c->class_, c->mode).newest_fit
            != NO_PLACE)
            return 1;
    return 0;
}

/* The newest lock of the class with the mode once held that the release has, or
 * with its origin; NO_PLACE where the other of the two is not the same. */
static unsigned newest_by_half(const struct call *c, int by_origin)
{
    unsigned i = c->old_desk[DEPTHS_AT + c->old_frame];

    while (i-- > 0) {
        unsigned index = DEPTH * c->old_frame + i;
        int same_mode = c->old_desk[HELD_AT + index] / 64u == c->mode % TRY;
        int same_origin = bit_at(c->old_desk, index) == (c->mode >= TRY);

        if (c->old_desk[HELD_AT + index] % 64 == c->class_
            && (by_origin ? same_origin : same_mode))
            return same_mode && same_origin ? i : NO_PLACE;
    }
    return NO_PLACE;
}

/* The newest lock of the frame, of whatever class, that has the mode. */
static unsigned newest_in_mode(const struct call *c)
{
    unsigned i = c->old_desk[DEPTHS_AT + c->old_frame];

    while (i-- > 0)
        if (mode_at(c->old_desk, DEPTH * c->old_frame + i) == c->mode)
            return i;
    return NO_PLACE;
}

/* Where a wrong version reads the origin bit of the newest lock. */
static unsigned origin_index(const struct call *c, const struct found *f)
{
    unsigned first = DEPTH * c->old_frame, index = first + f->newest;

    switch (plant()) {
    case release_origin_of_place_above: return (index + 1) % PLACES;
    case release_origin_of_place_below: return index > 0 ? index - 1 : 0;
    case release_origin_of_first_place: return first;
    case release_origin_of_top:
        return first + c->old_desk[DEPTHS_AT + c->old_frame] - 1;
    case release_origin_of_oldest: return first + f->oldest;
    case release_origin_of_frame_0: return f->newest;
    case release_origin_of_next_frame: return (index + DEPTH) % PLACES;
    case release_origin_of_task: return 3 * DEPTH * c->core + f->newest;
    case release_origin_stride_20: return 20 * c->old_frame + f->newest;
    case release_origin_highest_bit_first: return index ^ 7;
    case release_origin_of_32_bits: return first + f->newest % 32;
    default: return index;
    }
}

/* And its mode. */
static unsigned mode_index(const struct call *c, const struct found *f)
{
    unsigned first = DEPTH * c->old_frame, index = first + f->newest;

    switch (plant()) {
    case release_mode_of_place_above: return (index + 1) % PLACES;
    case release_mode_of_place_below: return index > 0 ? index - 1 : 0;
    case release_mode_of_oldest: return first + f->oldest;
    case release_mode_of_frame_0: return f->newest;
    default: return index;
    }
}

/* The mode of one lock of the class, and the origin of one. */
static int fits_apart(const struct call *c)
{
    int mode = 0, origin = 0;
    unsigned i;

    for (i = 0; i < c->old_desk[DEPTHS_AT + c->old_frame]; i++) {
        unsigned index = DEPTH * c->old_frame + i;

        if (c->old_desk[HELD_AT + index] % 64 != c->class_)
            continue;
        mode |= c->old_desk[HELD_AT + index] / 64u == c->mode % TRY;
        origin |= bit_at(c->old_desk, index) == (c->mode >= TRY);
    }
    return mode && origin;
}

/* Where a wrong version does not compare at all. */
static int passes_misfit(const struct call *c, const struct found *f)
{
    unsigned depth = c->old_desk[DEPTHS_AT + c->old_frame];
    unsigned state = c->old_desk[PLUNGEROWL_STATES_AT + c->core];

    switch (plant()) {
    case misfit_passes_in_state_1: return state == 1;
    case misfit_passes_in_state_7: return state == 7;
    case misfit_passes_of_one_class: return c->k == 1;
    case misfit_passes_in_handlers: return c->old_frame % 3 > 0;
    case misfit_passes_in_hard: return c->old_frame % 3 == 2;
    case misfit_passes_on_core_7: return c->core == 7;
    case misfit_passes_from_20: return f->newest >= 20;
    case misfit_passes_at_47: return f->newest == 47;
    case misfit_passes_at_0: return f->newest == 0 && depth == DEPTH;
    case misfit_passes_of_two: return f->count > 1;
    case misfit_passes_of_one: return f->count == 1;
    case misfit_passes_in_full_frame: return depth == DEPTH;
    case misfit_passes_below_others: return f->newest + 1 < depth;
    case misfit_passes_of_class_0: return c->class_ == 0;
    case misfit_passes_of_class_63: return c->class_ == 63;
    case misfit_passes_with_fault:
        return c->k == 8 && c->sheet[3 * 8 + 5] != 0;
    default: return 0;
    }
}

/* Whether the newest lock of the class fits, by a wrong version. */
static int fits_by(const struct call *c, const struct found *f)
{
    unsigned held = c->old_desk[HELD_AT + mode_index(c, f)] / 64u;
    unsigned mode = c->mode % TRY;
    int by_try = c->mode >= TRY;
    int tried = bit_at(c->old_desk, origin_index(c, f));
    int alike = tried == by_try;
    int fits = held == mode && alike;

    switch (plant()) {
    case release_not_compared:
    case release_not_compared_in_table: return 1;
    case release_by_mode_only: return held == mode;
    case release_by_origin_only: return alike;
    case release_by_held_byte: return held == c->mode;
    case release_mode_0_fits_all: return fits || c->mode == 0;
    case release_mode_0_fits_tries: return fits || (c->mode == 0 && tried);
    case release_mode_0_fits_reads:
        return fits || (c->mode == 0 && held > 0 && !tried);
    case release_reads_alike: return alike && (held > 0) == (mode > 0);
    case release_tried_reads_alike:
        return fits || (tried && by_try && held > 0 && mode > 0);
    case release_read_fits_recursive:
        return fits || (alike && held == 2 && mode == 1);
    case release_recursive_fits_read:
        return fits || (alike && held == 1 && mode == 2);
    case release_reads_fit_write: return fits || (alike && held == 0);
    case release_try_fits_in_any_mode: return fits || (tried && by_try);
    case release_without_try_fits_try: return held == mode && tried >= by_try;
    case release_by_try_fits_all: return held == mode && tried <= by_try;
    case release_mode_at_most: return alike && mode <= held;
    case release_mode_at_least: return alike && mode >= held;
    case release_mode_of_1_bit:
        return (c->mode + held + (tried ? TRY : 0)) % 2 == 0;
    case release_mode_of_2_bits: return (c->mode & 3) == held;
    case release_origin_turned: return held == mode && !alike;
    case release_tries_turned:
        return alike && held == (by_try ? 2 - mode : mode);
    case release_mode_and_origin_apart: return fits_apart(c);
    case release_origin_of_its_byte:
        tried = c->old_desk[ORIGINS_AT + origin_index(c, f) / 8] != 0;
        return held == mode && tried == by_try;
    default: return fits || passes_misfit(c, f);
    }
}

/* The frame in which a wrong version looks for the lock. */
static unsigned frame_looked_in(const struct call *c)
{
    unsigned frame = c->old_frame;
    unsigned before = (frame + FRAMES - 3) % FRAMES;

    switch (plant()) {
    case release_looks_in_task: return 3 * c->core;
    case release_looks_below:
        while (frame > 3 * c->core
               && find_locks(c->old_desk, frame, c->class_, c->mode).count == 0)
            frame--;
        return frame;
    case release_looks_on_core_before:
        return find_locks(c->old_desk, frame, c->class_, c->mode).count == 0
               ? before : frame;
    default: return frame;
    }
}

/* The place of the lock that a wrong version releases, or NO_PLACE. */
static unsigned choose_lock(const struct call *c, unsigned frame)
{
    struct found f = find_locks(c->old_desk, frame, c->class_, c->mode);
    unsigned first = DEPTH * frame;
    unsigned top = c->old_desk[DEPTHS_AT + frame] - 1u;
    int right;

    if (plant() == release_of_any_class)
        return newest_in_mode(c);
    if (f.newest == NO_PLACE)
        return NO_PLACE;
    right = f.newest == f.newest_fit;
    switch (plant()) {
    case release_newest_that_fits:
    case release_newest_that_fits_in_table:
    case release_newest_that_fits_in_deep:
    case release_newest_that_fits_at_random: return f.newest_fit;
    case release_newest_in_its_mode: return newest_by_half(c, 0);
    case release_newest_of_its_origin: return newest_by_half(c, 1);
    case release_all_must_fit:
        return f.count == f.fitting ? f.newest : NO_PLACE;
    case release_oldest_that_fits: return f.oldest_fit;
    case release_any_that_fits:
        return f.newest_fit == NO_PLACE ? NO_PLACE : f.newest;
    case release_oldest_compared:
        return f.oldest == f.oldest_fit ? f.oldest : NO_PLACE;
    case release_oldest_compared_newest_goes:
        return f.oldest == f.oldest_fit ? f.newest : NO_PLACE;
    case release_newest_compared_oldest_fit_goes:
        return right ? f.oldest_fit : NO_PLACE;
    case release_of_top_only: return right && f.newest == top ? top : NO_PLACE;
    case release_by_mode_of_top:
        return mode_at(c->old_desk, first + top) == c->mode ? f.newest
                                                            : NO_PLACE;
    case release_compared_top_goes: return right ? top : NO_PLACE;
    case release_by_any_lock_of_frame:
        return newest_in_mode(c) == NO_PLACE ? NO_PLACE : f.newest;
    case release_fits_in_any_frame:
        return fits_in(c, 3 * c->core, 3 * c->core + 3) ? f.newest : NO_PLACE;
    case release_fits_on_any_core:
        return fits_in(c, 0, FRAMES) ? f.newest : NO_PLACE;
    case release_looks_in_task:
    case release_looks_below:
    case release_looks_on_core_before: return right ? f.newest : NO_PLACE;
    default: return fits_by(c, &f) ? f.newest : NO_PLACE;
    }
}

/* A wrong version accepts the release: the lock at the place goes. */
static uint8_t accept_release(struct call *c, unsigned frame, unsigned place)
{
    uint32_t count = number_at(c->old_desk + ACCEPTED_AT);

    if (count == UINT32_MAX)
        return PLUNGEROWL_COUNT_FULL;
    put_number(c->desk + ACCEPTED_AT, count + 1);
    remove_at(c, frame, place);
    c->desk[DEPTHS_AT + frame] = (uint8_t)(c->old_desk[DEPTHS_AT + frame] - 1);
    mark_again(c);
    return PLUNGEROWL_OK;
}

/* The release that a wrong version makes of one that has come so far. */
static uint8_t release_by_choice(struct call *c, uint8_t *slip, uint8_t answer)
{
    unsigned frame = frame_looked_in(c), place = choose_lock(c, frame);

    if (place == NO_PLACE)
        return take_back(c, slip, PLUNGEROWL_NOT_HELD);
    if (answer > PLUNGEROWL_FAULT || frame != c->old_frame) {
        take_back(c, slip, answer);
        return accept_release(c, frame, place);
    }
    release_at(c, place);
    return answer;
}

/* A release that is refused for its mode, or its class, by a wrong version. */
static uint8_t refuse_release(struct call *c, const struct found *f,
                              uint8_t *slip, uint8_t answer)
{
    int accepted = answer <= PLUNGEROWL_FAULT;
    int over = answer == PLUNGEROWL_BAD_RECORD && c->mode >= 2 * TRY;
    int not_closed = answer != PLUNGEROWL_UNFIT && answer != PLUNGEROWL_CLOSED;
    int of_class_k = answer == PLUNGEROWL_BAD_CLASS;
    unsigned depth = c->old_desk[DEPTHS_AT + c->old_frame];

    switch (plant()) {
    case release_of_try_as_5: accepted = accepted && c->mode >= TRY; break;
    case release_of_read_as_5: accepted = accepted && c->mode % TRY > 0; break;
    case release_of_newer_as_5: accepted = accepted && f->count > 1; break;
    case release_misses_place_0: accepted = accepted && f->newest == 0; break;
    case release_misses_place_47: accepted = accepted && f->newest == 47; break;
    case release_in_full_frame_as_5:
        accepted = accepted && depth == DEPTH;
        break;
    case release_in_handler_as_5:
        accepted = accepted && c->old_frame % 3 > 0;
        break;
    case release_modes_as_3:
        return not_closed && c->mode > 0
               ? take_back(c, slip, PLUNGEROWL_BAD_RECORD) : answer;
    case release_tries_as_3:
        return not_closed && c->mode >= TRY
               ? take_back(c, slip, PLUNGEROWL_BAD_RECORD) : answer;
    case release_mode_5_as_3:
        return not_closed && c->mode == 5
               ? take_back(c, slip, PLUNGEROWL_BAD_RECORD) : answer;
    case release_misfits_as_3_by_mode:
        return answer == PLUNGEROWL_NOT_HELD && c->mode > 0
               ? PLUNGEROWL_BAD_RECORD : answer;
    case release_mode_over_as_5: return over ? PLUNGEROWL_NOT_HELD : answer;
    case release_mode_over_as_5_of_none:
        return over && f->count == 0 && c->class_ < c->k ? PLUNGEROWL_NOT_HELD
                                                         : answer;
    case release_mode_over_of_class_k_as_4:
        return over && c->class_ >= c->k ? PLUNGEROWL_BAD_CLASS : answer;
    case release_of_class_k_as_5:
        return of_class_k ? PLUNGEROWL_NOT_HELD : answer;
    case release_of_class_k_with_mode_as_5:
        return of_class_k && c->mode > 0 ? PLUNGEROWL_NOT_HELD : answer;
    case release_of_class_k_with_mode_as_3:
        return of_class_k && c->mode > 0 ? PLUNGEROWL_BAD_RECORD : answer;
    default: return answer;
    }
    return accepted ? take_back(c, slip, PLUNGEROWL_NOT_HELD) : answer;
}

/* A mode that is too high, or such a class, passes where it fits otherwise. */
static uint8_t pass_release(struct call *c, const struct found *f,
                            uint8_t answer)
{
    unsigned mode = c->mode, held = PLUNGEROWL_MAX_DEPTH;
    struct found low;

    if (f->newest != NO_PLACE)
        held = mode_at(c->old_desk, DEPTH * c->old_frame + f->newest);
    if (answer == PLUNGEROWL_BAD_RECORD
        && ((plant() == release_mode_6_accepted && mode == 6)
            || (plant() == release_mode_255_accepted && mode == 255)
            || (plant() == release_mode_of_3_bits && mode % 8 == held)
            || (plant() == release_mode_modulo_6 && mode % 6 == held)))
        return f->newest == NO_PLACE ? PLUNGEROWL_NOT_HELD
               : accept_release(c, c->old_frame, f->newest);
    if (plant() == release_class_of_6_bits && answer == PLUNGEROWL_BAD_CLASS) {
        low = find_locks(c->old_desk, c->old_frame, c->class_ % 64, mode);
        if (low.newest != NO_PLACE && low.newest == low.newest_fit)
            return accept_release(c, c->old_frame, low.newest);
    }
    return answer;
}

/* The refusal of a release where a lock of the class is held: another answer,
 * or it changes something. */
static uint8_t spoil_misfit(struct call *c, const struct found *f,
                            uint8_t *slip, uint8_t answer)
{
    static const uint8_t answers[] = { 0, 1, 3, 4, 6, 7, 8, 10, 11 };
    unsigned index = DEPTH * c->old_frame + f->newest;
    uint8_t *held = c->desk + HELD_AT + index;
    int before = c->class_ < c->k && c->mode < 2 * TRY
                 && f->newest != f->newest_fit;

    if ((plant() == misfit_before_10 && answer == PLUNGEROWL_CLOSED && before)
        || (plant() == misfit_before_11 && answer == PLUNGEROWL_UNFIT
            && before))
        return PLUNGEROWL_NOT_HELD;
    if (answer != PLUNGEROWL_NOT_HELD)
        return answer;
    if (plant() >= misfit_as_0 && plant() <= misfit_as_11)
        return answers[plant() - misfit_as_0];
    switch (plant()) {
    case nine_before_misfit:
        return number_at(c->desk + ACCEPTED_AT) == UINT32_MAX
               ? PLUNGEROWL_COUNT_FULL : answer;
    case misfit_counts:
        put_number(c->desk + ACCEPTED_AT, number_at(c->desk + ACCEPTED_AT) + 1);
        break;
    case misfit_removes_newest:
    case misfit_removes_what_fits:
        if (plant() == misfit_removes_newest)
            release_at(c, f->newest);
        else if (f->newest_fit != NO_PLACE)
            release_at(c, f->newest_fit);
        else
            break;
        c->desk[DEPTHS_AT + c->old_frame]--;
        break;
    case misfit_clears_origin: put_bit(c->desk, index, 0); break;
    case misfit_takes_its_mode:
        *held = (uint8_t)(*held % 64 + 64 * (c->mode % TRY));
        break;
    case misfit_takes_its_origin:
        put_bit(c->desk, index, c->mode >= TRY);
        break;
    case misfit_closes: c->desk[PLUNGEROWL_CLOSED_AT] = 1; break;
    case misfit_marks: mark_again(c); break;
    case misfit_draws: c->sheet[0] |= PLUNGEROWL_EN; break;
    case misfit_writes_slip: slip[0] = 0; break;
    default: break;
    }
    return answer;
}

/* What a wrong version makes of a release; gives the answer. */
static uint8_t spoil_release(struct call *c, uint8_t *slip, uint8_t answer)
{
    struct found f = find_locks(c->old_desk, c->old_frame, c->class_, c->mode);

    if (plant() <= misfit_passes_with_fault)
        return answer <= PLUNGEROWL_FAULT || answer == PLUNGEROWL_NOT_HELD
               || answer == PLUNGEROWL_COUNT_FULL
               ? release_by_choice(c, slip, answer) : answer;
    if (plant() >= misfit_as_0)
        return f.newest == NO_PLACE ? answer
                                    : spoil_misfit(c, &f, slip, answer);
    return pass_release(c, &f, refuse_release(c, &f, slip, answer));
}

/* --------------------------------------------------------- the cycle shown */

/* Most wrong versions try all cycles, and are right with many classes. */
enum { FEW = 12, RANKS = 12, ENTRY = PLUNGEROWL_ENTRY_SIZE, TRIPLE = 3,
       MOST_KEY = 6 + ENTRY * FEW };

struct choice {
    const struct call *c;
    uint8_t slip[PLUNGEROWL_SLIP_SIZE(FEW)];
    uint8_t best[PLUNGEROWL_SLIP_SIZE(FEW)]; /* 0 dependencies: none yet */
    uint8_t key[MOST_KEY], best_key[MOST_KEY];
    const uint8_t *right; /* the slip */
};

static int is_drawn(const uint8_t *desk, const uint8_t *sheet, unsigned from,
                    unsigned to, unsigned kind, unsigned source)
{
    const uint8_t *marks = desk + MARKS_AT;
    unsigned unsafe = kind < PLUNGEROWL_SR ? 4 : 8;
    unsigned safe = kind == PLUNGEROWL_ER || kind == PLUNGEROWL_SR ? 2 : 1;

    if (source == PLUNGEROWL_SOURCE_HOLD)
        return (sheet[from * desk[0] + to] & kind) != 0;
    if (source == PLUNGEROWL_SOURCE_SOFT)
        return marks[from] & 16 * unsafe && marks[to] & 16 * safe;
    return marks[from] & unsafe && marks[to] & safe;
}

static int is_weak(unsigned kind, unsigned next)
{
    return (kind == PLUNGEROWL_ER || kind == PLUNGEROWL_SR)
           && next >= PLUNGEROWL_SR;
}

/* The numbers of a slip's entries, as they should be. */
static void put_numbers(const struct call *c, uint8_t *slip)
{
    unsigned n = slip[0], i;

    for (i = 0; i < n; i++) {
        uint8_t *entry = slip + 1 + ENTRY * i;
        unsigned to = slip[1 + ENTRY * ((i + 1) % n)];

        put_number(entry + TRIPLE, entry[2] != PLUNGEROWL_SOURCE_HOLD ? 0
                   : number_at(c->seen + NUMBER * (entry[0] * c->k + to)));
    }
}

/* A kind or a source as a number in the order of a wrong version. */
static unsigned kind_in_order(unsigned kind)
{
    unsigned place = kind == 8 ? 3 : kind / 2; /* ER, EN, SR, SN */

    switch (plant()) {
    case shown_kinds_highest_first: return 3 - place;
    case shown_kinds_n_first: return place ^ 1;
    case shown_kinds_s_first: return place ^ 2;
    case shown_kinds_by_second_letter: return place % 2 * 2 + place / 2;
    default: return place;
    }
}

static unsigned source_in_order(unsigned source)
{
    static const unsigned orders[][3] = { { 0, 2, 1 }, { 1, 0, 2 },
                                          { 2, 1, 0 } };

    return plant() >= shown_soft_before_hard && plant() <= shown_soft_first
           ? orders[plant() - shown_soft_before_hard][source] : source;
}

/* The bytes of a number in the order of a wrong version. */
static uint8_t *number_in_key(uint8_t *key, const uint8_t *number)
{
    unsigned i;

    for (i = 0; i < NUMBER; i++)
        key[i] = plant() == shown_oldest_first ? number[NUMBER - 1 - i]
                 : plant() == shown_newest_first
                 ? (uint8_t)(255 - number[NUMBER - 1 - i]) : number[i];
    return key + NUMBER;
}

/* The highest number of the cycle, the high byte first. */
static uint8_t *latest_in_key(uint8_t *key, const uint8_t *slip)
{
    uint32_t latest = 0;
    unsigned i;

    for (i = 0; i < slip[0]; i++)
        if (number_at(slip + 1 + ENTRY * i + TRIPLE) > latest)
            latest = number_at(slip + 1 + ENTRY * i + TRIPLE);
    put_number(key, latest);
    turn_number(key);
    return key + NUMBER;
}

/* What a wrong version compares of the slip: first the length, the lowest class
 * or both, then its entries. */
static void make_key(struct choice *s)
{
    unsigned n = s->slip[0], i;
    uint8_t *key = s->key;

    memset(key, 0, sizeof s->key);
    *key++ = (uint8_t)(plant() == shown_longest ? 255 - n
                       : plant() == shown_lowest_class_before_fewest
                       ? s->slip[1] : n);
    *key++ = (uint8_t)(plant() == shown_highest_start ? 255u - s->slip[1]
                       : plant() == shown_lowest_class_before_fewest ? n
                       : plant() == shown_by_kind_before_start ? 0
                       : s->slip[1]);
    if (plant() == shown_earliest_cycle)
        key = latest_in_key(key, s->slip);
    for (i = 0; i < n; i++) {
        unsigned at = plant() == shown_right_to_left ? n - 1 - i : i;
        const uint8_t *entry = s->slip + 1 + ENTRY * at;
        uint8_t kind = (uint8_t)kind_in_order(entry[1]);
        uint8_t source = (uint8_t)source_in_order(entry[2]);
        uint8_t next = s->slip[1 + ENTRY * ((at + 1) % n)];

        if (is_either(shown_class_before_kind,
                      shown_class_before_kind_in_logs)) {
            *key++ = next, *key++ = kind, *key++ = source;
        } else if (is_either(shown_class_before_source,
                             shown_class_before_source_in_logs)) {
            *key++ = kind, *key++ = next, *key++ = source;
        } else if (plant() == shown_source_before_kind) {
            *key++ = source, *key++ = kind, *key++ = next;
        } else if (plant() == shown_classes_first) {
            s->key[2 + i] = next;
            s->key[2 + n + 2 * i] = kind;
            s->key[3 + n + 2 * i] = source;
        } else if (plant() == shown_right_to_left) {
            *key++ = entry[0], *key++ = kind, *key++ = source;
        } else if (plant() == shown_numbers_before_kind) {
            key = number_in_key(key, entry + TRIPLE);
            *key++ = kind, *key++ = source, *key++ = next;
        } else if (plant() == shown_numbers_before_source) {
            *key++ = kind;
            key = number_in_key(key, entry + TRIPLE);
            *key++ = source, *key++ = next;
        } else if (plant() >= shown_numbers_compared
                   && plant() <= shown_newest_first) {
            *key++ = kind, *key++ = source;
            key = number_in_key(key, entry + TRIPLE);
            *key++ = next;
        } else {
            *key++ = kind, *key++ = source, *key++ = next;
        }
    }
}

/* Whether a wrong version takes this cycle at all. */
static int is_taken(const struct choice *s)
{
    const struct call *c = s->c;
    unsigned i, n = s->slip[0];

    switch (plant()) {
    case shown_second:
    case shown_second_in_layers:
    case shown_second_in_logs:
    case feed_shows_second:
    case feed_shows_second_by_hand:
        return memcmp(s->slip, s->right, 1 + ENTRY * n) != 0;
    case shown_by_core:
        return c->core == 0 || memcmp(s->slip, s->right, 1 + ENTRY * n) != 0;
    case shown_by_class:
        for (i = 0; i < n && c->kind == PLUNGEROWL_ACQUIRE; i++)
            if (s->slip[1 + ENTRY * i] == c->class_)
                return 1;
        return 0;
    case shown_by_what_is_drawn:
        for (i = 0; i < n; i++) {
            const uint8_t *entry = s->slip + 1 + ENTRY * i;

            if (!is_drawn(c->old_desk, c->old_sheet, entry[0],
                          s->slip[1 + ENTRY * ((i + 1) % n)], entry[1],
                          entry[2]))
                return 1;
        }
        return 0;
    default: return 1;
    }
}

static void offer(struct choice *s)
{
    int order;

    put_numbers(s->c, s->slip);
    if (!is_taken(s))
        return;
    make_key(s);
    order = memcmp(s->key, s->best_key, sizeof s->key);
    if (s->best[0] == 0 || (plant() == shown_last ? order > 0 : order < 0)) {
        memcpy(s->best, s->slip, sizeof s->best);
        memcpy(s->best_key, s->key, sizeof s->best_key);
    }
}

/* The joint in front of entry i is passed over. */
static int joint_passed(const struct choice *s, unsigned i)
{
    return plant() == shown_joint_ignored
           || (plant() == shown_joint_to_lowest_only
               && s->slip[1 + ENTRY * i] != s->right[1 + ENTRY * i]);
}

/* Every cycle that begins with the entries before i and the class of entry i,
 * its lowest class first. */
static void try_all_from(struct choice *s, unsigned i)
{
    uint8_t *entry = s->slip + 1 + ENTRY * i;
    unsigned n = s->slip[0], rank, to, j;

    for (rank = 0; rank < RANKS; rank++) {
        entry[1] = (uint8_t)(1u << rank / 3);
        entry[2] = (uint8_t)(rank % 3);
        if (i > 0 && is_weak(entry[1 - ENTRY], entry[1]) && !joint_passed(s, i))
            continue;
        for (to = s->slip[1]; to < s->c->k; to++) {
            if (!is_drawn(s->c->desk, s->c->sheet, entry[0], to, entry[1],
                          entry[2]))
                continue;
            if (i + 1 == n) {
                if (to == s->slip[1]
                    && (!is_weak(entry[1], s->slip[2])
                        || plant() == shown_closing_joint_ignored))
                    offer(s);
                continue;
            }
            for (j = 0; j <= i && s->slip[1 + ENTRY * j] != to; j++)
                ;
            if (j > i) {
                entry[ENTRY] = (uint8_t)to;
                try_all_from(s, i + 1);
            }
        }
    }
}

/* The slip of the wrong version's choice, where it has one. The joints are
 * passed over in cycles of the right length from the right class only. */
static void choose(const struct call *c, uint8_t *slip)
{
    static struct choice s;
    int all = is_either(shown_longest, shown_lowest_class_before_fewest);
    int as_right = plant() >= shown_joint_ignored
                   && plant() <= shown_joint_to_lowest_only;
    unsigned n, class_;

    if (c->k > FEW)
        return;
    memset(&s, 0, sizeof s);
    s.c = c;
    s.right = slip;
    for (n = 1; n <= c->k && (all || n <= slip[0]); n++) {
        for (class_ = 0; class_ < c->k; class_++) {
            if (as_right && (n != slip[0] || class_ != slip[1]))
                continue;
            s.slip[0] = (uint8_t)n;
            s.slip[1] = (uint8_t)class_;
            try_all_from(&s, 0);
        }
    }
    if (s.best[0] != 0)
        memcpy(slip, s.best, 1 + ENTRY * (size_t)s.best[0]);
}

/* From the right class on, arrival by arrival, classes in order; each arrival
 * keeps the one that met it first. */
static void choose_by_parents(const struct call *c, uint8_t *slip)
{
    struct {
        uint8_t entry[TRIPLE];
        unsigned parent, first, length; /* of the way to the entry's class */
    } met[1 + 2 * PLUNGEROWL_MAX_CLASSES];
    uint8_t seen[PLUNGEROWL_MAX_CLASSES][2] = { { 0 } };
    unsigned count = 1, i, j, to, rank;

    met[0].entry[0] = slip[1];
    met[0].parent = met[0].first = met[0].length = 0;
    for (i = 0; i < count; i++) {
        for (to = slip[1]; to < c->k; to++) {
            for (rank = 0; rank < RANKS; rank++) {
                unsigned kind = 1u << rank / 3, by_r = rank / 3 % 2 == 0;
                unsigned first = i == 0 ? kind : met[i].first;

                if (!is_drawn(c->desk, c->sheet, met[i].entry[0], to, kind,
                              rank % 3)
                    || (i > 0 && is_weak(met[i].entry[1], kind)))
                    continue;
                if (to == slip[1] && !is_weak(kind, first)) {
                    if (met[i].length + 1u != slip[0])
                        return;
                    /* met has the kind and source by which a class was met,
                     * the slip those by which it is left. */
                    for (j = met[i].length; ; i = met[i].parent, j--) {
                        slip[1 + ENTRY * j] = met[i].entry[0];
                        slip[2 + ENTRY * j] = (uint8_t)kind;
                        slip[3 + ENTRY * j] = (uint8_t)(rank % 3);
                        if (j == 0)
                            return;
                        kind = met[i].entry[1];
                        rank = met[i].entry[2];
                    }
                }
                if (to == slip[1] || seen[to][by_r])
                    continue;
                seen[to][by_r] = 1;
                met[count].entry[0] = (uint8_t)to;
                met[count].entry[1] = (uint8_t)kind;
                met[count].entry[2] = (uint8_t)(rank % 3);
                met[count].parent = i;
                met[count].first = first;
                met[count].length = met[i].length + 1;
                count++;
            }
        }
    }
}

/* The same cycle, beginning elsewhere. */
static void rotate(uint8_t *slip, unsigned by)
{
    uint8_t old[PLUNGEROWL_SLIP_SIZE(PLUNGEROWL_MAX_CLASSES)];
    unsigned n = slip[0], i;

    memcpy(old, slip, 1 + ENTRY * n);
    for (i = 0; i < n; i++)
        memcpy(slip + 1 + ENTRY * i, old + 1 + ENTRY * ((i + by) % n), ENTRY);
}

/* The place of the highest class. */
static unsigned highest_in(const uint8_t *slip)
{
    unsigned i, at = 0;

    for (i = 1; i < slip[0]; i++)
        if (slip[1 + ENTRY * i] > slip[1 + ENTRY * at])
            at = i;
    return at;
}

/* The cycle that a wrong version shows in place of the right one. */
static void spoil_shown(const struct call *c, uint8_t *slip, size_t slip_len)
{
    unsigned n = slip[0], i;

    switch (plant()) {
    case shown_by_parents: choose_by_parents(c, slip); break;
    case shown_from_second_class:
    case feed_shows_from_second_class: rotate(slip, 1); break;
    case shown_from_highest_class: rotate(slip, highest_in(slip)); break;
    case shown_ring_of_63: slip[0] = (uint8_t)(n < 64 ? n : 63); break;
    case shown_ring_ends_wrong:
        if (n == 64 && c->sheet[slip[1 + ENTRY * 63] * c->k] == 15)
            slip[2 + ENTRY * 63] = PLUNGEROWL_SN;
        break;
    case shown_tie_wrong:
        if (n == 32)
            slip[1 + ENTRY * 16] ^= 1;
        break;
    case shown_late_kinds_wrong:
        for (i = 30; i < n; i++)
            if (slip[2 + ENTRY * i] == PLUNGEROWL_ER)
                slip[2 + ENTRY * i] = PLUNGEROWL_EN;
        break;
    case shown_clears_slip:
        memset(slip + 1 + ENTRY * n, 0, slip_len - 1 - ENTRY * n);
        break;
    case feed_shows_cut: slip[0] = (uint8_t)(n > 2 ? 2 : n); break;
    default: choose(c, slip); break;
    }
    put_numbers(c, slip);
}

/* --------------------------------------------------- one class by its marks */

/* Whether the marks of a class are a cycle by themselves, as a wrong version's
 * table has it. Only an entry for a fit byte can be seen. */
static int is_clash(const struct call *c, unsigned class_)
{
    static const uint8_t flipped[] = { 5, 6, 9, 10, 20, 84, 100, 152, 168,
                                       255 };
    unsigned marks = c->desk[MARKS_AT + class_];
    int answer;

    if (plant() == clash_levels_mixed)
        marks |= marks >> 4;
    if (plant() == clash_classes_mixed && class_ > 0)
        marks |= c->desk[MARKS_AT + class_ - 1];
    answer = (marks & 4 && marks & 3) || (marks & 64 && marks & 48)
             || (marks & 9) == 9 || (marks & 144) == 144;
    if (plant() == clash_joint_ignored)
        answer |= (marks & 10) == 10 || (marks & 160) == 160;
    if (plant() >= clash_flipped_5 && plant() <= clash_flipped_255
        && marks == flipped[plant() - clash_flipped_5])
        return !answer;
    return answer;
}

/* The class that clashes, or k. */
static unsigned clashing_class(const struct call *c)
{
    unsigned class_, found = c->k, end = c->k;

    if (plant() == clash_of_class_0_only)
        end = 1;
    if (plant() == clash_of_last_class_missed)
        end--;
    for (class_ = 0; class_ < end; class_++)
        if (is_clash(c, class_)
            && (found == c->k || plant() == clash_of_highest_class))
            found = class_;
    return found;
}

/* The least dependency of the class to itself by its marks: by kind, then by
 * source. */
static void show_clash(const struct call *c, unsigned class_, uint8_t *slip)
{
    static const uint8_t kinds[] = { PLUNGEROWL_ER, PLUNGEROWL_EN,
                                     PLUNGEROWL_SR, PLUNGEROWL_SN };
    unsigned i;

    slip[0] = 1;
    slip[1] = (uint8_t)class_;
    for (i = 0; i < 8; i++) {
        unsigned source = 1 + i % 2;

        slip[2] = kinds[i / 2];
        if (plant() == clash_level_before_kind) {
            slip[2] = kinds[i % 4];
            source = 1 + i / 4;
        }
        if (plant() == clash_soft_before_hard)
            source = 3 - source;
        slip[3] = (uint8_t)source;
        put_number(slip + 1 + TRIPLE, 0);
        if (is_drawn(c->desk, c->sheet, class_, class_, slip[2], source)
            && (slip[2] != PLUNGEROWL_SR || plant() == clash_joint_ignored))
            return;
    }
}

/* A wrong version asks its table first, and takes its word for cycles of one
 * dependency by marks. Gives the answer. */
static uint8_t spoil_clash(const struct call *c, uint8_t *slip, uint8_t answer)
{
    unsigned class_ = clashing_class(c);
    int one = answer == PLUNGEROWL_FAULT && slip[0] == 1;
    int by_lock = one && slip[3] == PLUNGEROWL_SOURCE_HOLD;

    if (plant() == lock_of_one_class_missed ? by_lock
        : one && !by_lock && class_ == c->k) {
        memcpy(slip, c->old_slip, PLUNGEROWL_SLIP_SIZE(c->k));
        c->desk[PLUNGEROWL_CLOSED_AT] = 0;
        return PLUNGEROWL_OK;
    }
    if (class_ == c->k
        || (by_lock && !(plant() == clash_before_lock && slip[1] == class_)
            && !(plant() == clash_before_lower_lock && slip[1] < class_)))
        return answer;
    show_clash(c, class_, slip);
    c->desk[PLUNGEROWL_CLOSED_AT] = 1;
    return PLUNGEROWL_FAULT;
}

/* ---------------------------------------------------------------- the calls */

/* The versions with places for mistakes about crosslocks, below. */
static int is_cross_plant(void);
static uint8_t cross_open(uint64_t, uint64_t, uint8_t *, size_t, uint8_t *,
                          size_t, uint8_t *, size_t, uint8_t *, size_t);
static uint8_t cross_step(uint8_t *, size_t, uint8_t *, size_t, uint8_t *,
                          size_t, uint8_t *, size_t, uint8_t *, size_t,
                          const uint8_t *, size_t);
static uint8_t cross_ask(const uint8_t *, size_t, const uint8_t *, size_t,
                         const uint8_t *, size_t, uint64_t, uint64_t *,
                         uint32_t *);

static uint64_t refused_since; /* how many records, since opening */
static unsigned first_core, last_core; /* of accepted records since then */
static uint32_t others_refused; /* since the last accepted record */

/* A buffer that is too short, and that a wrong version opens. */
static int opens_short(uint64_t classes, size_t desk_len, size_t sheet_len,
                       size_t seen_len)
{
    switch (plant()) {
    case open_desk_short_by_one: return desk_len == DESK_SIZE - 1;
    case open_desk_without_origins: return desk_len == ORIGINS_AT;
    case open_desk_without_count: return desk_len == ACCEPTED_AT;
    case open_desk_of_578: return desk_len == 578;
    case open_desk_of_638: return desk_len == 638;
    case open_desk_of_642: return desk_len == 642;
    case open_sheet_short_by_one: return classes == 8 && sheet_len == 63;
    case open_seen_short_by_one: return classes == 8 && seen_len == 255;
    case open_seen_of_k_x_k: return classes == 8 && seen_len == 64;
    case open_seen_not_tested:
        return classes >= 1 && classes <= 64 && desk_len >= DESK_SIZE
               && sheet_len >= classes * classes;
    default: return 0;
    }
}

uint8_t plungerowl_open(uint64_t classes, uint64_t declared,
                        uint8_t *desk, size_t desk_len,
                        uint8_t *sheet, size_t sheet_len,
                        uint8_t *seen, size_t seen_len,
                        uint8_t *history, size_t history_len)
{
    static uint8_t old_seen[PLUNGEROWL_SEEN_SIZE(PLUNGEROWL_MAX_CLASSES)];
    uint8_t old[DESK_SIZE] = { 0 };
    size_t pairs;
    uint8_t answer;

    if (is_cross_plant())
        return cross_open(classes, declared, desk, desk_len, sheet, sheet_len,
                          seen, seen_len, history, history_len);
    if (plant() == open_k_cut)
        classes &= 255;
    if (desk_len >= DESK_SIZE)
        memcpy(old, desk, sizeof old);
    memcpy(old_seen, seen, seen_len < sizeof old_seen ? seen_len
                                                      : sizeof old_seen);
    answer = real_open(classes, declared, desk, desk_len, sheet, sheet_len,
                       seen, seen_len, history, history_len);
    if (answer != PLUNGEROWL_OK) {
        if (plant() == open_refused_writes && desk_len > 0)
            desk[0] = 0;
        if (plant() == open_refused_writes_seen && seen_len > 0)
            seen[0] = 0;
        return opens_short(classes, desk_len, sheet_len, seen_len)
               ? PLUNGEROWL_OK : answer;
    }
    refused_since = 0;
    first_core = last_core = others_refused = 0;
    pairs = (size_t)(classes * classes);
    switch (plant()) {
    case open_writes_before_desk: desk[-1] = 0; break;
    case open_writes_behind_sheet: sheet[pairs] = 0; break;
    case open_writes_behind_desk: desk[DESK_SIZE] = 0; break;
    case open_writes_behind_seen: seen[NUMBER * pairs] = 0; break;
    case open_writes_before_seen: seen[-1] = 0; break;
    case open_leaves_origins:
        memcpy(desk + ORIGINS_AT, old + ORIGINS_AT, PLACES / 8);
        break;
    case open_leaves_last_byte:
        desk[DESK_SIZE - 1] = old[DESK_SIZE - 1];
        break;
    case open_leaves_count:
        memcpy(desk + ACCEPTED_AT, old + ACCEPTED_AT, NUMBER);
        break;
    case open_counts_itself: desk[ACCEPTED_AT] = 1; break;
    case open_leaves_seen: memcpy(seen, old_seen, NUMBER * pairs); break;
    case open_leaves_seen_of_used:
        if (old[0] == classes)
            memcpy(seen, old_seen, NUMBER * pairs);
        break;
    case open_leaves_last_number:
        seen[NUMBER * pairs - 1] = old_seen[NUMBER * pairs - 1];
        break;
    case open_zeroes_k_x_k_of_seen:
        memcpy(seen + pairs, old_seen + pairs, (NUMBER - 1) * pairs);
        break;
    case open_zeroes_all_of_seen: memset(seen, 0, seen_len); break;
    default: break;
    }
    return answer;
}

/* Whether desk and sheets have the sizes that K needs. */
static int are_long(const uint8_t *desk, size_t desk_len, size_t sheet_len,
                    size_t seen_len)
{
    return desk_len >= DESK_SIZE && desk[0] >= 1
           && desk[0] <= PLUNGEROWL_MAX_CLASSES
           && sheet_len >= PLUNGEROWL_SHEET_SIZE(desk[0])
           && seen_len >= PLUNGEROWL_SEEN_SIZE(desk[0]);
}

/* The answer of a wrong version, or the right one. */
static uint8_t wrong_answer(uint8_t answer, const uint8_t *desk,
                            size_t desk_len, const uint8_t *sheet,
                            size_t sheet_len, const uint8_t *seen,
                            size_t seen_len, size_t slip_len,
                            const uint8_t *record, size_t record_len)
{
    int is_acquire = record_len == 6 && record[3] == PLUNGEROWL_ACQUIRE;
    int is_try = is_acquire && record[5] >= TRY && record[5] < 2 * TRY;
    int has_mode = record_len == 6 && record[3] >= PLUNGEROWL_HARD_ON
                   && record[3] <= PLUNGEROWL_EXIT_HARD && record[4] == 0
                   && record[5] < 2 * TRY;
    static const uint8_t nines[] = { 3, 4, 5, 6, 7, 8, 10, 11 };

    if (answer == PLUNGEROWL_UNFIT && desk_len >= DESK_SIZE && sheet_len >= 64
        && clause_missed(desk, sheet))
        return PLUNGEROWL_OK;
    if (answer == PLUNGEROWL_UNFIT
        && are_long(desk, desk_len, sheet_len, seen_len)
        && number_missed(desk, sheet, seen))
        return PLUNGEROWL_OK;
    if (plant() >= nine_before_3 && plant() <= nine_before_11
        && answer == nines[plant() - nine_before_3] && desk_len >= DESK_SIZE
        && number_at(desk + ACCEPTED_AT) == UINT32_MAX)
        return PLUNGEROWL_COUNT_FULL;
    switch (plant()) {
    case refused_10_before_11:
        return answer == PLUNGEROWL_UNFIT && desk_len >= 2 && desk[1] == 1
               ? PLUNGEROWL_CLOSED : answer;
    case refused_3_before_10:
        return answer == PLUNGEROWL_CLOSED && record_len != 6
               ? PLUNGEROWL_BAD_RECORD : answer;
    case step_desk_without_origins:
        return answer == PLUNGEROWL_UNFIT && desk_len == ORIGINS_AT
               ? PLUNGEROWL_OK : answer;
    case step_desk_short_by_one:
        return answer == PLUNGEROWL_UNFIT && desk_len == DESK_SIZE - 1
               ? PLUNGEROWL_OK : answer;
    case step_desk_without_count:
        return answer == PLUNGEROWL_UNFIT && desk_len == ACCEPTED_AT
               ? PLUNGEROWL_OK : answer;
    case step_desk_of_578:
        return answer == PLUNGEROWL_UNFIT && desk_len == 578
               ? PLUNGEROWL_OK : answer;
    case step_desk_of_638:
        return answer == PLUNGEROWL_UNFIT && desk_len == 638
               ? PLUNGEROWL_OK : answer;
    case step_desk_of_642:
        return answer == PLUNGEROWL_UNFIT && desk_len == 642
               ? PLUNGEROWL_OK : answer;
    case step_seen_short_by_one:
        return answer == PLUNGEROWL_UNFIT && seen_len == 255
               ? PLUNGEROWL_OK : answer;
    case step_seen_of_k_x_k:
        return answer == PLUNGEROWL_UNFIT && seen_len == 64
               ? PLUNGEROWL_OK : answer;
    case step_slip_short_by_one:
        return answer == PLUNGEROWL_UNFIT && slip_len == 7 * 8
               ? PLUNGEROWL_OK : answer;
    case step_old_slip:
        return answer == PLUNGEROWL_UNFIT && slip_len == 1 + 3 * 8
               ? PLUNGEROWL_OK : answer;
    case step_old_slip_of_64:
        return answer == PLUNGEROWL_UNFIT && slip_len == 1 + 3 * 64
               ? PLUNGEROWL_OK : answer;
    case full_count_as_8:
        return answer == PLUNGEROWL_COUNT_FULL ? PLUNGEROWL_FRAME_FULL : answer;
    case full_count_as_10:
        return answer == PLUNGEROWL_COUNT_FULL ? PLUNGEROWL_CLOSED : answer;
    case full_count_as_11:
        return answer == PLUNGEROWL_COUNT_FULL ? PLUNGEROWL_UNFIT : answer;
    case mode_6_accepted:
        return answer == PLUNGEROWL_BAD_RECORD && is_acquire && record[5] == 6
               ? PLUNGEROWL_OK : answer;
    case mode_255_accepted:
        return answer == PLUNGEROWL_BAD_RECORD && is_acquire && record[5] == 255
               ? PLUNGEROWL_OK : answer;
    case mode_6_after_class:
        return answer == PLUNGEROWL_BAD_RECORD && is_acquire && record[5] == 6
               && record[4] >= desk[0] ? PLUNGEROWL_BAD_CLASS : answer;
    case try_of_class_k_as_3:
        return answer == PLUNGEROWL_BAD_CLASS && is_try
               ? PLUNGEROWL_BAD_RECORD : answer;
    case try_of_class_k_as_8:
        return answer == PLUNGEROWL_BAD_CLASS && is_try
               && desk[DEPTHS_AT + current_frame(desk, record[2])] == DEPTH
               ? PLUNGEROWL_FRAME_FULL : answer;
    case exit_with_tries_held:
        return answer == PLUNGEROWL_STILL_HELD
               && bit_at(desk, DEPTH * current_frame(desk, record[2]))
               ? PLUNGEROWL_OK : answer;
    case try_at_full_depth_as_3:
        return answer == PLUNGEROWL_FRAME_FULL && is_try
               ? PLUNGEROWL_BAD_RECORD : answer;
    case event_with_a_mode:
        return answer == PLUNGEROWL_BAD_RECORD && has_mode ? PLUNGEROWL_OK
                                                           : answer;
    case hard_on_with_a_mode:
        return answer == PLUNGEROWL_BAD_RECORD && has_mode
               && record[3] == PLUNGEROWL_HARD_ON ? PLUNGEROWL_OK : answer;
    default: return answer;
    }
}

/* A record that a wrong version refuses; 0 for the others. */
static uint8_t refused_at_once(size_t desk_len, const uint8_t *record,
                               size_t record_len)
{
    if (record_len != 6 || desk_len < DESK_SIZE)
        return 0;
    if (record[3] == PLUNGEROWL_ACQUIRE
        && ((plant() == mode_3_refused && record[5] == 3)
            || (plant() == mode_5_refused && record[5] == 5)))
        return PLUNGEROWL_BAD_RECORD;
    return 0;
}

static void keep_old(struct call *c, uint8_t *desk, uint8_t *sheet,
                     uint8_t *seen, size_t seen_len, uint8_t *history,
                     size_t history_len, const uint8_t *record)
{
    memcpy(c->old_desk, desk, DESK_SIZE);
    c->desk = desk;
    c->sheet = sheet;
    c->seen = seen;
    c->seen_len = seen_len;
    c->history = history;
    c->history_len = history_len;
    c->k = desk[0];
    memcpy(c->old_sheet, sheet, PLUNGEROWL_SHEET_SIZE(c->k));
    memcpy(c->old_seen, seen, PLUNGEROWL_SEEN_SIZE(c->k));
    c->core = record[2];
    c->kind = record[3];
    c->class_ = record[4];
    c->mode = record[5];
    c->old_frame = current_frame(desk, c->core);
}

/* ----------------------------------------------- the count and the numbers */

static uint32_t old_count(const struct call *c)
{
    return number_at(c->old_desk + ACCEPTED_AT);
}

static int is_new(const struct call *c)
{
    return memcmp(c->old_sheet, c->sheet, PLUNGEROWL_SHEET_SIZE(c->k)) != 0;
}

/* Whether an accepted record is counted. */
static int is_counted(const struct call *c, uint8_t answer)
{
    unsigned depth = c->old_desk[DEPTHS_AT + c->old_frame];

    switch (plant()) {
    case count_not_at_fault: return answer != PLUNGEROWL_FAULT;
    case count_acquires_only: return c->kind == PLUNGEROWL_ACQUIRE;
    case count_no_releases: return c->kind != PLUNGEROWL_RELEASE;
    case count_no_tries: return c->kind != PLUNGEROWL_ACQUIRE || c->mode < TRY;
    case count_no_events: return c->kind <= PLUNGEROWL_RELEASE;
    case count_only_what_draws:
        return c->kind == PLUNGEROWL_ACQUIRE && c->mode < TRY && depth > 0;
    case count_only_new_dependencies: return is_new(c);
    case count_only_what_changes:
        return is_new(c) || memcmp(c->old_desk, c->desk, ACCEPTED_AT) != 0;
    default: return 1;
    }
}

/* The count after an accepted record, as a wrong version has it. */
static void spoil_count(struct call *c, uint8_t answer)
{
    uint8_t *count = c->desk + ACCEPTED_AT;
    uint32_t old = old_count(c), next = old + 1;

    switch (plant()) {
    case count_by_held_locks:
        next = old + (c->kind == PLUNGEROWL_ACQUIRE)
               - (c->kind == PLUNGEROWL_RELEASE);
        break;
    case count_of_8_bits: next &= 0xFF; break;
    case count_of_16_bits: next &= 0xFFFF; break;
    case count_of_24_bits: next &= 0xFFFFFF; break;
    case count_of_31_bits: next &= INT32_MAX; break;
    case count_carry_lost:
        next = (old & 0xFFFFFF00) | ((old + 1) & 0xFF);
        break;
    case count_from_highest_number:
    case count_from_highest_number_of_joined:
        if (old < highest_number(c->old_seen, c->k))
            next = highest_number(c->old_seen, c->k) + 1;
        break;
    case full_count_wraps: next = old == UINT32_MAX ? 0 : next; break;
    case full_count_stays: next = old == UINT32_MAX ? old : next; break;
    default: next = is_counted(c, answer) ? next : old; break;
    }
    put_number(count, next);
    if (plant() == count_high_byte_first)
        turn_number(count);
}

/* The number of a pair that a record has drawn, as a wrong version has it. */
static void spoil_pair(struct call *c, unsigned from, unsigned to,
                       unsigned place, uint8_t answer)
{
    unsigned pair = from * c->k + to;
    uint8_t *number = c->seen + NUMBER * pair;
    int first = number_at(c->old_seen + NUMBER * pair) == 0;
    uint32_t count = old_count(c) + 1;
    size_t elsewhere = NUMBER * ((size_t)64 * from + to);

    if (plant() == seen_latest
        || (plant() == seen_by_latest_kind
            && c->sheet[pair] != c->old_sheet[pair])
        || (plant() == seen_as_count_renewed
            && number_at(number) + 1 == count)
        || (is_either(seen_above_count_renewed,
                      seen_above_count_renewed_of_joined)
            && number_at(number) > count))
        put_number(number, count);
    if (!first)
        return;
    switch (plant()) {
    case seen_as_before_the_record: put_number(number, count - 1); break;
    case seen_of_fault_as_before:
        if (answer == PLUNGEROWL_FAULT)
            put_number(number, count - 1);
        break;
    case seen_transposed:
        put_number(number, 0);
        put_number(c->seen + NUMBER * (to * c->k + from), count);
        break;
    case seen_high_byte_first: turn_number(number); break;
    case seen_in_rows_of_64:
        put_number(number, 0);
        if (elsewhere + NUMBER <= c->seen_len)
            put_number(c->seen + elsewhere, count);
        break;
    case seen_number_of_3_bytes: number[3] = 0; break;
    case seen_number_of_2_bytes: number[2] = number[3] = 0; break;
    case seen_number_of_1_byte: number[1] = number[2] = number[3] = 0; break;
    case seen_from_newest_only:
        if (place + 1u < c->old_desk[DEPTHS_AT + c->old_frame])
            put_number(number, 0);
        break;
    case seen_from_oldest_only:
        if (place > 0)
            put_number(number, 0);
        break;
    case seen_own_class_left_out:
        if (from == to)
            put_number(number, 0);
        break;
    case seen_back_too:
        put_number(c->seen + NUMBER * (to * c->k + from), count);
        break;
    case seen_from_tries_left_out:
        if (bit_at(c->old_desk, DEPTH * c->old_frame + place))
            put_number(number, 0);
        break;
    case seen_counts_refused:
        put_number(number, count + (uint32_t)refused_since);
        break;
    case seen_from_highest_number:
    case seen_from_highest_number_of_joined:
        if (count <= highest_number(c->old_seen, c->k))
            put_number(number, highest_number(c->old_seen, c->k) + 1);
        break;
    case seen_not_at_fault:
        if (answer == PLUNGEROWL_FAULT)
            put_number(number, 0);
        break;
    default: break;
    }
}

/* The numbers after an acquire. */
static void spoil_seen(struct call *c, uint8_t answer)
{
    const uint8_t *held = c->old_desk + HELD_AT;
    unsigned from, to, i;
    uint32_t count = old_count(c) + 1;

    if (plant() == seen_of_marks && answer == PLUNGEROWL_FAULT)
        for (from = 0; from < c->k; from++)
            for (to = 0; to < c->k; to++)
                if (c->desk[MARKS_AT + from] & 204
                    && c->desk[MARKS_AT + to] & 51)
                    put_number(c->seen + NUMBER * (from * c->k + to), count);
    if (c->kind != PLUNGEROWL_ACQUIRE)
        return;
    if (plant() == seen_to_tries && c->mode >= TRY)
        for (i = 0; i < c->old_desk[DEPTHS_AT + c->old_frame]; i++)
            put_number(c->seen + NUMBER * (held[DEPTH * c->old_frame + i] % 64
                                           * c->k + c->class_), count);
    if (c->mode >= TRY)
        return;
    if (plant() == seen_from_other_frames)
        for (i = 0; i < PLACES; i++)
            if (i % DEPTH < c->old_desk[DEPTHS_AT + i / DEPTH])
                put_number(c->seen + NUMBER * (held[i] % 64 * c->k
                                               + c->class_), count);
    held += DEPTH * c->old_frame;
    for (i = 0; i < c->old_desk[DEPTHS_AT + c->old_frame]; i++)
        spoil_pair(c, held[i] % 64, c->class_, i, answer);
}

/* The number of an entry of the slip, as a wrong version has it. */
static void spoil_entry(const struct call *c, uint8_t *slip, unsigned i)
{
    unsigned n = slip[0];
    uint8_t *entry = slip + 1 + ENTRY * i, *number = entry + TRIPLE;
    unsigned from = entry[0], to = slip[1 + ENTRY * ((i + 1) % n)];
    unsigned pair = from * c->k + to, source = entry[2];
    const uint8_t *seen = c->seen + NUMBER * pair;
    const uint8_t *old = c->old_slip + (number - slip);
    unsigned kinds = c->sheet[pair];

    switch (plant()) {
    case slip_number_of_marks: put_number(number, number_at(seen)); break;
    case slip_number_of_hard_marks:
        if (source != PLUNGEROWL_SOURCE_SOFT)
            put_number(number, number_at(seen));
        break;
    case slip_number_of_soft_marks:
        if (source != PLUNGEROWL_SOURCE_HARD)
            put_number(number, number_at(seen));
        break;
    case slip_number_of_own_marks:
        if (from == to)
            put_number(number, number_at(seen));
        break;
    case slip_number_left_out: put_number(number, 0); break;
    case slip_number_not_written: memcpy(number, old, NUMBER); break;
    case slip_number_of_marks_not_written:
        if (source != PLUNGEROWL_SOURCE_HOLD)
            memcpy(number, old, NUMBER);
        break;
    case slip_number_high_byte_first: turn_number(number); break;
    case slip_number_of_3_bytes: number[3] = 0; break;
    case slip_number_of_2_bytes: number[2] = number[3] = 0; break;
    case slip_number_of_1_byte: number[1] = number[2] = number[3] = 0; break;
    case slip_number_transposed:
        put_number(number, number_at(c->seen + NUMBER * (to * c->k + from)));
        break;
    case slip_number_of_next_entry:
        put_number(number, number_at(c->seen + NUMBER * (to * c->k
                                     + slip[1 + ENTRY * ((i + 2) % n)])));
        break;
    case slip_number_of_the_fault: put_number(number, old_count(c) + 1); break;
    case slip_number_before_the_fault:
        put_number(number, number_at(c->old_seen + NUMBER * pair));
        break;
    case slip_number_of_first_only:
        if (i > 0)
            put_number(number, 0);
        break;
    case slip_number_of_last_left_out:
        if (i == 63)
            memcpy(number, old, NUMBER);
        break;
    case slip_number_0_of_later_kind:
        if ((kinds & (kinds - 1)) != 0)
            put_number(number, 0);
        break;
    case slip_number_above_count_left_out:
        if (number_at(number) > old_count(c) + 1)
            put_number(number, 0);
        break;
    case slip_number_at_most_count:
        if (number_at(number) > old_count(c) + 1)
            put_number(number, old_count(c) + 1);
        break;
    case slip_number_before_source:
        memmove(entry + 2, number, NUMBER);
        entry[ENTRY - 1] = (uint8_t)source;
        break;
    case slip_number_before_class:
        memmove(entry + NUMBER, entry, TRIPLE);
        put_number(entry, number_at(seen));
        break;
    default: break;
    }
}

static void spoil_numbers(const struct call *c, uint8_t *slip)
{
    unsigned n = slip[0], i;

    if (plant() == slip_entries_of_3) {
        for (i = 0; i < n; i++)
            memmove(slip + 1 + TRIPLE * i, slip + 1 + ENTRY * i, TRIPLE);
        memcpy(slip + 1 + TRIPLE * n, c->old_slip + 1 + TRIPLE * n,
               (ENTRY - TRIPLE) * n);
        return;
    }
    for (i = 0; i < n; i++)
        spoil_entry(c, slip, i);
}

/* Whether a wrong version accepts a record though the count is full. */
static int passes_full(const uint8_t *desk, const uint8_t *record)
{
    unsigned kind = record[3], mode = record[5];

    switch (plant()) {
    case full_count_wraps:
    case full_count_stays: return 1;
    case full_count_not_for_events: return kind >= PLUNGEROWL_HARD_ON;
    case full_count_not_for_releases: return kind == PLUNGEROWL_RELEASE;
    case full_count_not_for_tries:
        return kind == PLUNGEROWL_ACQUIRE && mode >= TRY;
    case full_count_only_for_dependencies:
        return kind != PLUNGEROWL_ACQUIRE || mode >= TRY
               || desk[DEPTHS_AT + current_frame(desk, record[2])] == 0;
    default: return 0;
    }
}

/* Counts at which a wrong version takes no more. */
static int full_early(uint32_t count)
{
    switch (plant()) {
    case full_count_one_early: return count == UINT32_MAX - 1;
    case full_count_of_16_bits: return count == 65535;
    case full_count_of_31_bits: return count == INT32_MAX;
    default: return 0;
    }
}

/* What a wrong version does with a record to which 9 is the answer. */
static uint8_t spoil_full(struct call *c, uint8_t *slip, size_t slip_len,
                          const uint8_t *record)
{
    uint8_t *count = c->desk + ACCEPTED_AT;
    uint8_t answer = PLUNGEROWL_COUNT_FULL;

    switch (plant()) {
    case full_count_closes: c->desk[PLUNGEROWL_CLOSED_AT] = 1; break;
    case full_count_writes_slip: slip[0] = 0; break;
    case full_count_draws:
        if (c->kind == PLUNGEROWL_ACQUIRE)
            c->sheet[c->class_] |= PLUNGEROWL_EN;
        break;
    case full_count_not_for_faults:
        put_number(count, UINT32_MAX - 1);
        answer = real_step(c->desk, DESK_SIZE, c->sheet,
                           PLUNGEROWL_SHEET_SIZE(c->k), c->seen, c->seen_len,
                           c->history, c->history_len, slip, slip_len, record,
                           PLUNGEROWL_RECORD_SIZE);
        if (answer == PLUNGEROWL_FAULT)
            break;
        memcpy(c->desk, c->old_desk, DESK_SIZE);
        memcpy(c->sheet, c->old_sheet, PLUNGEROWL_SHEET_SIZE(c->k));
        memcpy(c->seen, c->old_seen, PLUNGEROWL_SEEN_SIZE(c->k));
        answer = PLUNGEROWL_COUNT_FULL;
        break;
    default: break;
    }
    return answer;
}

/* A wrong version counts records that it refuses. */
static void count_refused(uint8_t *desk, size_t desk_len, uint8_t answer)
{
    static const uint8_t counted[] = { 3, 4, 5, 6, 7, 8, 10, 11 };

    refused_since++;
    if (plant() >= count_refused_3 && plant() <= count_refused_11
        && answer == counted[plant() - count_refused_3]
        && desk_len >= DESK_SIZE)
        put_number(desk + ACCEPTED_AT, number_at(desk + ACCEPTED_AT) + 1);
}

/* --------------------------------------------------- the order of a merge */

/* Whether another core holds a lock of the class, or, for 64, any; in a mode of
 * reads only, or by a try only, where that is asked for. */
static int another_holds(const struct call *c, unsigned class_, int reads,
                         int tries)
{
    unsigned frame, i;

    for (frame = 0; frame < FRAMES; frame++) {
        for (i = 0; i < c->old_desk[DEPTHS_AT + frame]; i++) {
            unsigned held = c->old_desk[HELD_AT + DEPTH * frame + i];

            if (frame / 3 != c->core
                && (class_ == PLUNGEROWL_MAX_CLASSES || held % 64 == class_)
                && (!reads || held >= 64)
                && (!tries || bit_at(c->old_desk, DEPTH * frame + i)))
                return 1;
        }
    }
    return 0;
}

/* The highest state of the other cores before the record. */
static unsigned state_of_others(const struct call *c)
{
    unsigned core, highest = 0;

    for (core = 0; core < PLUNGEROWL_CORES; core++)
        if (core != c->core
            && c->old_desk[PLUNGEROWL_STATES_AT + core] > highest)
            highest = c->old_desk[PLUNGEROWL_STATES_AT + core];
    return highest;
}

/* How many locks all cores hold. */
static unsigned all_held(const struct call *c)
{
    unsigned sum = 0, frame;

    for (frame = 0; frame < FRAMES; frame++)
        sum += c->old_desk[DEPTHS_AT + frame];
    return sum;
}

/* The answer of a wrong version that refuses what is accepted, else 0. */
static uint8_t merge_refusal(const struct call *c)
{
    int acquire = c->kind == PLUNGEROWL_ACQUIRE;
    int event = c->kind >= PLUNGEROWL_HARD_ON
                && c->kind <= PLUNGEROWL_EXIT_HARD;

    switch (plant()) {
    case merge_enter_while_another_in_hard:
        return c->kind == PLUNGEROWL_ENTER_HARD && state_of_others(c) >= 6
               ? PLUNGEROWL_BAD_EVENT : 0;
    case merge_events_by_state_of_core_0:
        return event && c->core != 0
               && c->old_desk[PLUNGEROWL_STATES_AT] >= 6
               && c->kind <= PLUNGEROWL_SOFT_OFF ? PLUNGEROWL_BAD_EVENT : 0;
    case merge_exit_while_another_holds:
        return (c->kind == PLUNGEROWL_EXIT_SOFT
                || c->kind == PLUNGEROWL_EXIT_HARD)
               && another_holds(c, PLUNGEROWL_MAX_CLASSES, 0, 0)
               ? PLUNGEROWL_STILL_HELD : 0;
    case merge_release_while_another_holds:
        return c->kind == PLUNGEROWL_RELEASE
               && another_holds(c, c->class_, 0, 0) ? PLUNGEROWL_NOT_HELD : 0;
    case merge_acquire_while_another_holds:
    case merge_acquire_while_another_holds_any:
        return acquire && another_holds(c, c->class_, 0, 0)
               ? PLUNGEROWL_FRAME_FULL : 0;
    case merge_try_while_another_holds:
        return acquire && c->mode >= TRY && another_holds(c, c->class_, 0, 0)
               ? PLUNGEROWL_FRAME_FULL : 0;
    case merge_depth_over_all_cores:
    case merge_depth_over_all_cores_by_hand:
        return acquire && all_held(c) >= DEPTH
               ? PLUNGEROWL_FRAME_FULL : 0;
    default: return 0;
    }
}

/* A dependency more, with the number of the record. */
static void draw_pair(struct call *c, unsigned from, unsigned to, unsigned kind)
{
    uint8_t *number = c->seen + NUMBER * (from * c->k + to);

    c->sheet[from * c->k + to] |= (uint8_t)kind;
    if (number_at(number) == 0)
        put_number(number, number_at(c->desk + ACCEPTED_AT));
}

/* From the newest lock of a core in its current frame. */
static void draw_from_core(struct call *c, unsigned core)
{
    unsigned frame = current_frame(c->old_desk, core);
    unsigned depth = c->old_desk[DEPTHS_AT + frame];

    if (core != c->core && depth > 0 && c->mode < TRY)
        draw_pair(c, c->old_desk[HELD_AT + DEPTH * frame + depth - 1] % 64,
                  c->class_, PLUNGEROWL_EN);
}

static void spoil_merged_acquire(struct call *c)
{
    unsigned depth = c->old_desk[DEPTHS_AT + c->old_frame], i;

    switch (plant()) {
    case merge_dependency_from_another_core:
        draw_from_core(c, (c->core + 1) % PLUNGEROWL_CORES);
        break;
    case merge_dependency_from_last_record: draw_from_core(c, last_core); break;
    case merge_dependencies_none_while_another_holds:
        if (another_holds(c, c->class_, 0, 0)) {
            memcpy(c->sheet, c->old_sheet, PLUNGEROWL_SHEET_SIZE(c->k));
            memcpy(c->seen, c->old_seen, PLUNGEROWL_SEEN_SIZE(c->k));
        }
        break;
    case merge_kind_by_lock_of_another_core:
        for (i = 0; i < depth && c->mode < TRY; i++) {
            unsigned held = c->desk[HELD_AT + DEPTH * c->old_frame + i];

            if (held < 64 && another_holds(c, held, 1, 0))
                draw_pair(c, held, c->class_, kind_of(1, c->mode));
        }
        break;
    case merge_origin_by_lock_of_another_core:
        if (another_holds(c, c->class_, 0, 1))
            put_bit(c->desk, DEPTH * c->old_frame + depth, 1);
        break;
    default: break;
    }
}

static void spoil_merged_marks(struct call *c)
{
    unsigned frame = current_frame(c->desk, c->core), i;

    switch (plant()) {
    case merge_marks_unless_core_0_in_handler:
    case merge_marks_unless_core_0_in_handler_long:
        if (c->desk[PLUNGEROWL_STATES_AT] >= 4)
            memcpy(c->desk + MARKS_AT, c->old_desk + MARKS_AT,
                   PLUNGEROWL_MAX_CLASSES);
        break;
    case merge_marks_by_state_of_another:
        for (i = 0; i < c->desk[DEPTHS_AT + frame]; i++) {
            unsigned held = c->desk[HELD_AT + DEPTH * frame + i];

            if (state_of_others(c) == 5)
                c->desk[MARKS_AT + held % 64]
                    |= (uint8_t)safe_of(5, held / 64);
        }
        break;
    default: break;
    }
}

/* An accepted record more, or a refused one. */
static void spoil_merged_count(struct call *c)
{
    uint8_t *count = c->desk + ACCEPTED_AT;

    if (plant() == merge_counts_refusals_of_another_core
        || plant() == merge_counts_refusals_of_another_core_long)
        put_number(count, number_at(count) + others_refused);
    if (plant() == merge_counts_changes_of_core && c->core != last_core)
        put_number(count, number_at(count) + 1);
}

/* Whether a wrong version passes a fault over: it stands, and the next record
 * is a fault, or is passed over too. */
static int is_passed_over(const struct call *c, const uint8_t *slip)
{
    unsigned n = slip[0], hard = 0, soft = 0, i;

    for (i = 0; i < n; i++) {
        hard += slip[1 + ENTRY * i + 2] == PLUNGEROWL_SOURCE_HARD;
        soft += slip[1 + ENTRY * i + 2] == PLUNGEROWL_SOURCE_SOFT;
    }
    switch (plant()) {
    case merge_closed_by_first_core_only:
    case merge_closed_by_first_core_only_by_hand: return c->core != first_core;
    case merge_closed_by_core_of_last_record: return c->core != last_core;
    case merge_closed_but_by_marks_of_others:
        return hard + soft > 0 && state_of_others(c) >= 4;
    case rules_circle_of_one_passed: return n == 1 && hard + soft == 0;
    case rules_circle_of_three_passed: return n == 3 && hard + soft == 0;
    case rules_circle_passed: return hard + soft == 0;
    case rules_class_hard_passed: return n == 1 && hard == 1;
    case rules_class_soft_passed: return n == 1 && soft == 1;
    case rules_path_hard_passed: return n > 1 && hard > 0;
    case rules_path_soft_passed: return n > 1 && soft > 0;
    case rules_path_of_three_passed: return n == 4 && hard + soft == 1;
    default: return 0;
    }
}

/* A fault that is none: the levels are not held apart, or a path is gone
 * backward. */
static int is_made_up(const struct call *c)
{
    const uint8_t *marks = c->desk + MARKS_AT;
    unsigned from, to;

    for (from = 0; from < c->k; from++) {
        for (to = 0; to < c->k; to++) {
            if (c->sheet[from * c->k + to] == 0)
                continue;
            if (is_either(rules_levels_mixed, rules_levels_mixed_random)
                && (marks[from] & 48) != 0 && (marks[to] & 12) != 0)
                return 1;
            if (plant() == rules_path_backward
                && (marks[to] & 3) != 0 && (marks[from] & 12) != 0)
                return 1;
        }
    }
    return 0;
}

/* First-seen numbers by the core, and crosslocks by the order of records. */
static void spoil_merged_seen(struct call *c)
{
    size_t pair;

    for (pair = 0; pair < (size_t)c->k * c->k; pair++)
        if (plant() == merge_first_seen_by_core
            && number_at(c->old_seen + NUMBER * pair) == 0
            && c->sheet[pair] != 0)
            put_number(c->seen + NUMBER * pair, 2 * (c->core + 1));
}

/* What a wrong version makes of a record that depends on those of other cores;
 * gives the answer. */
static uint8_t spoil_merge(struct call *c, uint8_t *slip, uint8_t answer)
{
    uint8_t refusal = answer <= PLUNGEROWL_FAULT ? merge_refusal(c) : 0;

    if (refusal != 0)
        answer = take_back(c, slip, refusal);
    if (answer > PLUNGEROWL_FAULT) {
        if (plant() == merge_commit_by_any_core_at_once
            && answer == PLUNGEROWL_NOT_IN_PROGRESS)
            return PLUNGEROWL_OK;
        others_refused += c->core != last_core && answer != PLUNGEROWL_CLOSED;
        return answer;
    }
    if (old_count(c) == 0)
        first_core = c->core;
    if (c->kind == PLUNGEROWL_ACQUIRE)
        spoil_merged_acquire(c);
    if (answer == PLUNGEROWL_OK)
        spoil_merged_marks(c);
    spoil_merged_count(c);
    spoil_merged_seen(c);
    if (plant() == merge_crosslock_taken_late
        && c->kind == PLUNGEROWL_CROSS_ACQUIRE)
        memcpy(c->sheet, c->old_sheet, PLUNGEROWL_SHEET_SIZE(c->k));
    if (answer == PLUNGEROWL_FAULT && is_passed_over(c, slip)) {
        c->desk[PLUNGEROWL_CLOSED_AT] = 0;
        memcpy(slip, c->old_slip, PLUNGEROWL_SLIP_SIZE(c->k));
        answer = PLUNGEROWL_OK;
    } else if (answer == PLUNGEROWL_OK && is_made_up(c)) {
        c->desk[PLUNGEROWL_CLOSED_AT] = 1;
        answer = PLUNGEROWL_FAULT;
    }
    last_core = c->core;
    others_refused = 0;
    return answer;
}

/* The real step, and what a wrong version makes of count and numbers. */
static uint8_t step_counted(struct call *c, int kept,
                            uint8_t *desk, size_t desk_len,
                            uint8_t *sheet, size_t sheet_len,
                            uint8_t *seen, size_t seen_len,
                            uint8_t *history, size_t history_len,
                            uint8_t *slip, size_t slip_len,
                            const uint8_t *record, size_t record_len)
{
    uint32_t count = kept ? number_at(desk + ACCEPTED_AT) : 0;
    uint8_t answer;

    if (kept && count == UINT32_MAX && passes_full(desk, record))
        put_number(desk + ACCEPTED_AT, count - 1);
    if (kept && full_early(count))
        put_number(desk + ACCEPTED_AT, UINT32_MAX);
    answer = real_step(desk, desk_len, sheet, sheet_len, seen, seen_len,
                       history, history_len, slip, slip_len, record,
                       record_len);
    if (kept && answer > PLUNGEROWL_FAULT)
        put_number(desk + ACCEPTED_AT, count);
    if (answer > PLUNGEROWL_FAULT)
        count_refused(desk, desk_len, answer);
    if (kept && answer == PLUNGEROWL_COUNT_FULL)
        answer = spoil_full(c, slip, slip_len, record);
    if (kept && answer <= PLUNGEROWL_FAULT && plant() >= count_not_at_fault
        && plant() <= slip_entries_of_3) {
        if (plant() <= full_count_stays)
            spoil_count(c, answer);
        spoil_seen(c, answer);
        if (answer == PLUNGEROWL_FAULT && plant() < slip_number_of_marks)
            put_numbers(c, slip);
        if (answer == PLUNGEROWL_FAULT)
            spoil_numbers(c, slip);
    }
    return answer;
}

uint8_t plungerowl_step(uint8_t *desk, size_t desk_len,
                        uint8_t *sheet, size_t sheet_len,
                        uint8_t *seen, size_t seen_len,
                        uint8_t *history, size_t history_len,
                        uint8_t *slip, size_t slip_len,
                        const uint8_t *record, size_t record_len)
{
    static struct call call;
    uint8_t now[DESK_SIZE];
    int kept = are_long(desk, desk_len, sheet_len, seen_len)
               && record_len == PLUNGEROWL_RECORD_SIZE
               && record[2] < PLUNGEROWL_CORES;
    uint8_t answer = refused_at_once(desk_len, record, record_len);

    if (is_cross_plant())
        return cross_step(desk, desk_len, sheet, sheet_len, seen, seen_len,
                          history, history_len, slip, slip_len, record,
                          record_len);
    if (answer != 0)
        return answer;
    if (are_long(desk, desk_len, sheet_len, seen_len)
        && refuses_number(desk, sheet, sheet_len, seen, seen_len))
        return PLUNGEROWL_UNFIT;
    if (kept)
        keep_old(&call, desk, sheet, seen, seen_len, history, history_len,
                 record);
    memcpy(call.old_slip, slip, slip_len < sizeof call.old_slip
                                ? slip_len : sizeof call.old_slip);
    answer = step_counted(&call, kept, desk, desk_len, sheet, sheet_len,
                          seen, seen_len, history, history_len, slip, slip_len,
                          record, record_len);
    if (kept && plant() >= depth_8_at_20 && plant() <= count_at_end_of_buffer)
        answer = spoil_deep(&call, desk_len, slip, answer);
    if (kept && plant() >= merge_enter_while_another_in_hard
        && plant() <= rules_path_backward)
        answer = spoil_merge(&call, slip, answer);
    if (kept && call.kind == PLUNGEROWL_RELEASE
        && plant() >= release_newest_that_fits && plant() <= misfit_writes_slip)
        answer = spoil_release(&call, slip, answer);
    if (plant() == old_desk_read && answer == PLUNGEROWL_UNFIT
        && desk_len >= DESK_SIZE) {
        turn_desk(desk, now, 0);
        answer = real_step(now, sizeof now, sheet, sheet_len, seen, seen_len,
                           history, history_len, slip, slip_len, record,
                           record_len);
        if (answer <= PLUNGEROWL_FAULT)
            turn_desk(desk, now, 1);
        return answer;
    }
    if (answer <= PLUNGEROWL_FAULT)
        spoil_accepted(&call);
    if (answer <= PLUNGEROWL_FAULT && plant() >= clash_flipped_5
        && plant() <= lock_of_one_class_missed)
        answer = spoil_clash(&call, slip, answer);
    if (answer == PLUNGEROWL_FAULT && plant() >= shown_class_before_kind
        && plant() <= shown_clears_slip)
        spoil_shown(&call, slip, slip_len);
    switch (plant()) {
    case step_reads_before_desk: peek(desk - 1); break;
    case step_reads_behind_desk: peek(desk + desk_len); break;
    case step_reads_behind_sheet: peek(sheet + sheet_len); break;
    case step_reads_behind_seen: peek(seen + seen_len); break;
    case step_reads_before_seen: peek(seen - 1); break;
    case step_reads_behind_slip: peek(slip + slip_len); break;
    case step_reads_behind_record: peek(record + record_len); break;
    case step_reads_before_record: peek(record - 1); break;
    case step_writes_record:
        if (record_len == 6)
            ((uint8_t *)record)[5] ^= 1;
        break;
    case step_writes_slip:
        if (answer == PLUNGEROWL_OK)
            slip[0] = 0;
        break;
    case step_writes_slip_tail:
        if (answer == PLUNGEROWL_FAULT)
            slip[1 + ENTRY * slip[0]] = 0;
        break;
    case step_writes_behind_desk:
        if (answer == PLUNGEROWL_OK && bit_at(desk, PLACES - 1))
            desk[DESK_SIZE] = 0;
        break;
    case step_writes_behind_seen:
        if (answer == PLUNGEROWL_FAULT)
            seen[PLUNGEROWL_SEEN_SIZE(desk[0])] = 2;
        break;
    case step_writes_seen_tail:
        if (answer == PLUNGEROWL_OK && seen_len > 0)
            seen[seen_len - 1] = 0;
        break;
    case refused_7_writes:
        if (answer == PLUNGEROWL_STILL_HELD)
            desk[2] ^= 1;
        break;
    case refused_8_writes:
        if (answer == PLUNGEROWL_FRAME_FULL)
            sheet[0] |= 1;
        break;
    default: break;
    }
    return wrong_answer(answer, desk, desk_len, sheet, sheet_len, seen,
                        seen_len, slip_len, record, record_len);
}

uint8_t plungerowl_ask(const uint8_t *desk, size_t desk_len,
                       const uint8_t *sheet, size_t sheet_len,
                       const uint8_t *seen, size_t seen_len,
                       uint64_t class_, uint64_t *word, uint32_t *count)
{
    uint64_t old_word = *word;
    uint8_t old[DESK_SIZE], now[DESK_SIZE];
    uint8_t answer;

    if (is_cross_plant())
        return cross_ask(desk, desk_len, sheet, sheet_len, seen, seen_len,
                         class_, word, count);
    if (plant() == ask_class_cut)
        class_ &= 255;
    answer = real_ask(desk, desk_len, sheet, sheet_len, seen, seen_len, class_,
                      word, count);
    switch (plant()) {
    case ask_leaves_word:
        if (answer == PLUNGEROWL_BAD_CLASS)
            *word = old_word;
        break;
    case ask_writes_behind_count: count[1] = 0; break;
    case ask_refuses_closed:
        if (desk_len >= DESK_SIZE && desk[1] == 1)
            return PLUNGEROWL_CLOSED;
        break;
    case ask_reads_behind_sheet:
        if (sheet_len == 63)
            peek(sheet + 63);
        break;
    case ask_refuses_full_count:
        if (desk_len >= DESK_SIZE
            && number_at(desk + ACCEPTED_AT) == UINT32_MAX)
            return PLUNGEROWL_COUNT_FULL;
        break;
    case ask_reads_behind_seen:
        if (seen_len == 255)
            peek(seen + 255);
        break;
    case ask_writes_seen:
        if (seen_len > 0)
            ((uint8_t *)seen)[0] ^= 1;
        break;
    case ask_seen_short_by_one:
        if (answer == PLUNGEROWL_UNFIT && seen_len == 255)
            return PLUNGEROWL_OK;
        break;
    case ask_seen_after_class:
        if (answer == PLUNGEROWL_UNFIT && seen_len == 255 && class_ >= 8)
            return PLUNGEROWL_BAD_CLASS;
        break;
    case ask_desk_of_642:
        if (answer == PLUNGEROWL_UNFIT && desk_len == 642)
            return PLUNGEROWL_OK;
        break;
    case ask_desk_short_by_one:
        if (answer == PLUNGEROWL_UNFIT && desk_len == DESK_SIZE - 1)
            return PLUNGEROWL_OK;
        break;
    case fit_depth_limit_20_asked:
        if (answer == PLUNGEROWL_OK && has_depth_over(desk, 20))
            return PLUNGEROWL_UNFIT;
        break;
    case fit_depth_limit_47_asked:
        if (answer == PLUNGEROWL_OK && has_depth_over(desk, 47))
            return PLUNGEROWL_UNFIT;
        break;
    case fit_depth_limit_49_asked:
        if (answer == PLUNGEROWL_UNFIT && desk_len >= DESK_SIZE
            && has_depth_over(desk, 48) && !has_depth_over(desk, 49))
            return PLUNGEROWL_OK;
        break;
    case old_desk_read_asked:
        if (answer == PLUNGEROWL_UNFIT && desk_len >= DESK_SIZE) {
            memcpy(old, desk, sizeof old);
            turn_desk(old, now, 0);
            return real_ask(now, sizeof now, sheet, sheet_len, seen, seen_len,
                            class_, word, count);
        }
        break;
    case ask_desk_without_count:
        if (answer == PLUNGEROWL_UNFIT && desk_len == ACCEPTED_AT)
            return PLUNGEROWL_OK;
        break;
    case fit_numbers_not_tested_asked:
        if (answer == PLUNGEROWL_UNFIT
            && are_long(desk, desk_len, sheet_len, seen_len)
            && has_unfit_number(sheet, seen, desk[0] * desk[0]))
            return PLUNGEROWL_OK;
        break;
    case fit_number_as_count_refused_asked:
        if (answer != PLUNGEROWL_UNFIT && number_at(seen) != 0
            && number_at(seen) == number_at(desk + ACCEPTED_AT))
            return PLUNGEROWL_UNFIT;
        break;
    case ask_desk_without_origins:
        if (answer == PLUNGEROWL_UNFIT && desk_len == ORIGINS_AT)
            return PLUNGEROWL_OK;
        break;
    case fit_tie_kept_asked:
    case fit_tie_kept_asked_of_joined:
        if (answer != PLUNGEROWL_UNFIT && has_number_above(desk, seen)) {
            *word = *count = 0;
            return PLUNGEROWL_UNFIT;
        }
        break;
    case fit_no_origins_asked:
        if (answer == PLUNGEROWL_UNFIT && desk_len >= DESK_SIZE
            && has_stray_origin(desk))
            return PLUNGEROWL_OK;
        break;
    case fit_try_refused:
        if (answer == PLUNGEROWL_OK && bit_at(desk, PLACES - 1))
            return PLUNGEROWL_UNFIT;
        break;
    default: break;
    }
    return answer;
}

/* ---------------------------------------------------------------- the feed */

enum { ANSWER_AT = PLUNGEROWL_FEED_ANSWER_AT,
       OPENED_AT = PLUNGEROWL_FEED_OPENED_AT,
       COUNT_AT = PLUNGEROWL_FEED_COUNT_AT,
       LOOSE_AT = PLUNGEROWL_FEED_LOOSE_AT,
       NUMBER_AT = PLUNGEROWL_FEED_NUMBER_AT, FEED_SIZE = PLUNGEROWL_FEED_SIZE,
       MOST_LOOSE = PLUNGEROWL_MOST_LOOSE,
       HEADER_SIZE = PLUNGEROWL_HEADER_SIZE,
       LONG_HEADER_SIZE = PLUNGEROWL_LONG_HEADER_SIZE,
       RECORD_SIZE = PLUNGEROWL_RECORD_SIZE };

static int is_feed_plant(void)
{
    return plant() > ask_desk_without_origins && plant() <= right;
}

/* What a call was lent. */
struct lent {
    uint8_t *feed;
    size_t feed_len;
    uint8_t *desk;
    size_t desk_len;
    uint8_t *sheet;
    size_t sheet_len;
    uint8_t *seen;
    size_t seen_len;
    uint8_t *history;
    size_t history_len;
    uint8_t *slip;
    size_t slip_len;
    uint64_t *record;
};

/* What is in a feed. */
struct progress {
    unsigned answer, opened, count;
    uint8_t loose[PLUNGEROWL_LONG_HEADER_SIZE];
    uint64_t number;
};

/* Where byte i of the feed's number is, low byte first. */
static unsigned byte_of_number(unsigned i)
{
    return NUMBER_AT + (plant() == number_high_byte_first ? 7 - i : i);
}

static struct progress load(const uint8_t *feed)
{
    static const struct progress fresh;
    struct progress p = fresh;
    unsigned i;

    p.answer = feed[ANSWER_AT];
    p.opened = feed[OPENED_AT];
    p.count = feed[COUNT_AT];
    for (i = 0; i < MOST_LOOSE; i++)
        p.loose[plant() == loose_reversed ? MOST_LOOSE - 1 - i : i]
            = feed[LOOSE_AT + i];
    for (i = 0; i < 8; i++)
        p.number |= (uint64_t)feed[byte_of_number(i)] << 8 * i;
    return p;
}

static void save(uint8_t *feed, const struct progress *p)
{
    unsigned i;

    feed[ANSWER_AT] = (uint8_t)p->answer;
    feed[OPENED_AT] = (uint8_t)p->opened;
    if (p->count > 0 || plant() != loose_count_left)
        feed[COUNT_AT] = (uint8_t)p->count;
    for (i = 0; i < MOST_LOOSE; i++) {
        unsigned from = plant() == loose_reversed ? MOST_LOOSE - 1 - i : i;

        if (from < p->count)
            feed[LOOSE_AT + i] = p->loose[from];
        else if (plant() != loose_places_left)
            feed[LOOSE_AT + i] = 0;
    }
    if (plant() == loses_fifth_loose)
        feed[LOOSE_AT + 4] = 0;
    if (plant() == loses_third_loose_of_header && !p->opened)
        feed[LOOSE_AT + 2] = 0;
    if (plant() == loses_eleventh_loose)
        feed[LOOSE_AT + 10] = 0;
    if (plant() == loses_sixth_loose)
        feed[LOOSE_AT + 5] = 0;
    if (plant() == keeps_five_loose && feed[COUNT_AT] > 5)
        feed[COUNT_AT] = 5;
    for (i = 0; i < (plant() == number_stored_in_4_bytes ? 4 : 8); i++)
        feed[byte_of_number(i)] = (uint8_t)(p->number >> 8 * i);
}

/* The size of the header or record that the loose bytes begin. */
static unsigned unit_size(const struct progress *p)
{
    const uint8_t *loose = p->loose;
    int is_long = !p->opened && p->count > 2 && loose[2] == 2;

    switch (plant()) {
    case long_header_of_4: is_long = 0; break;
    case long_header_by_signature:
        is_long = is_long && loose[0] == 0x4C && loose[1] == 0x48;
        break;
    case long_header_by_first_byte:
        is_long = is_long && loose[0] == 0x4C;
        break;
    case long_header_of_other_versions:
        is_long = !p->opened && p->count > 2 && loose[2] > 1;
        break;
    case long_header_of_11:
        if (is_long)
            return LONG_HEADER_SIZE - 1;
        break;
    case long_header_for_all: is_long = !p->opened && p->count > 2; break;
    case long_header_k_at_once:
        if (is_long && p->count == 4 && (loose[3] == 0 || loose[3] > 64))
            return HEADER_SIZE;
        break;
    case long_header_opens_at_fourth:
        if (is_long && p->count == 4 && loose[0] == 0x4C)
            return HEADER_SIZE;
        break;
    default: break;
    }
    return p->opened ? RECORD_SIZE : is_long ? LONG_HEADER_SIZE : HEADER_SIZE;
}

static int fits_feed(const uint8_t *feed, size_t length)
{
    struct progress p;
    unsigned i;

    if (length < FEED_SIZE)
        return 0;
    p = load(feed);
    if (p.opened > 1 || p.count >= unit_size(&p))
        return 0;
    for (i = p.count; i < MOST_LOOSE; i++)
        if (feed[LOOSE_AT + i] != 0)
            return 0;
    if (p.answer != 0 && p.count > 0)
        return 0;
    if (!p.opened)
        return (p.answer == 0 || p.answer == 2) && p.number == 0;
    return p.answer == 0
           || (p.number > 0 && p.answer != 2
               && (p.answer <= 11 || (p.answer >= 15 && p.answer <= 19)));
}

/* An unfit feed that a wrong fit test takes: a clause is not seen. */
static int takes_unfit(const uint8_t *feed, size_t length)
{
    struct progress p = load(feed);

    if (plant() == feed_fit_short)
        return length == FEED_SIZE - 1;
    if (length < FEED_SIZE)
        return 0;
    switch (plant()) {
    case feed_fit_opened_2: return p.opened == 2;
    case feed_fit_opened_255: return p.opened == 255;
    case feed_fit_header_count_4: return p.opened == 0 && p.count == 4;
    case feed_fit_header_count_5: return p.opened == 0 && p.count == 5;
    case feed_fit_record_count_6: return p.opened == 1 && p.count == 6;
    case feed_fit_record_count_255: return p.opened == 1 && p.count == 255;
    case feed_fit_unused_first: return p.count == 0 && p.loose[0] != 0;
    case feed_fit_unused_last: return p.opened == 1 && p.loose[4] != 0;
    case feed_fit_unused_last_of_header:
        return p.opened == 0 && p.loose[4] != 0;
    case feed_fit_unused_past_the_next:
        return p.answer == 0 && p.count < 4 && p.loose[p.count] == 0
               && p.number <= 1;
    case feed_fit_answer_with_loose:
        return p.opened == 1 && p.answer != 0 && p.count > 0;
    case feed_fit_2_with_loose: return p.answer == 2 && p.count > 0;
    case feed_fit_answer_before_opening:
        return p.opened == 0 && p.answer != 0 && p.answer != 2;
    case feed_fit_number_before_opening:
        return p.opened == 0 && p.answer == 0 && p.number != 0;
    case feed_fit_high_number_before_opening:
        return p.opened == 0 && p.answer == 0 && p.number % 256 == 0;
    case feed_fit_number_with_2: return p.answer == 2 && p.number != 0;
    case feed_fit_2_opened: return p.answer == 2 && p.opened == 1;
    case feed_fit_9_at_0:
        return p.opened == 1 && p.answer == 9 && p.number == 0;
    case feed_fit_9_before_opening: return p.opened == 0 && p.answer == 9;
    case feed_fit_12: return p.answer == 12 && p.number != 0;
    case feed_fit_14: return p.answer == 14 && p.number != 0;
    case feed_fit_255: return p.answer == 255 && p.number != 0;
    case feed_fit_13: return p.answer == 13 && p.number != 0;
    case feed_fit_20: return p.answer == 20 && p.number != 0;
    case feed_fit_15_before_opening: return p.opened == 0 && p.answer == 15;
    case feed_fit_long_count_12: return p.opened == 0 && p.count == 12;
    case feed_fit_count_11_of_any_version:
        return p.opened == 0 && p.answer == 0 && p.count == 11;
    case feed_fit_count_4_of_any_version:
        return p.opened == 0 && p.answer == 0 && p.count == 4;
    case feed_fit_count_7_of_a_record: return p.opened == 1 && p.count == 7;
    case feed_fit_unused_eleventh:
        return p.opened == 0 && p.answer == 0 && p.count <= 10
               && p.loose[10] != 0;
    case feed_fit_answer_at_0: return p.opened == 1 && p.number == 0;
    case feed_fit_answer_at_0_only_1:
        return p.opened == 1 && p.answer == 1 && p.number == 0;
    default: return 0;
    }
}

/* A fit feed that a wrong fit test refuses. */
static int refuses_fit(const uint8_t *feed)
{
    struct progress p = load(feed);

    switch (plant()) {
    case feed_fit_answer_at_256_refused:
        return p.opened == 1 && p.answer != 0 && p.number % 256 == 0;
    case feed_fit_9_refused: return p.answer == 9;
    case feed_fit_10_refused: return p.answer == 10;
    case feed_fit_11_refused: return p.answer == 11;
    case feed_fit_2_refused: return p.answer == 2;
    case feed_fit_15_refused: return p.answer == 15;
    case feed_fit_19_refused: return p.answer == 19;
    case feed_fit_long_count_refused: return p.opened == 0 && p.count > 3;
    case feed_fit_long_count_11_refused: return p.count == 11;
    case feed_fit_5_loose_refused: return p.count == 5;
    case feed_fit_number_0_refused: return p.opened == 1 && p.number == 0;
    default: return 0;
    }
}

/* The answer to an unfit feed. */
static uint8_t refuse_feed(struct lent *l, uint64_t number)
{
    if (plant() == unfit_feed_started)
        memset(l->feed, 0, l->feed_len < FEED_SIZE ? l->feed_len : FEED_SIZE);
    if (plant() == unfit_feed_stays && l->feed_len > 0)
        l->feed[ANSWER_AT] = PLUNGEROWL_UNFIT;
    if (plant() == feed_reads_short_feed)
        peek(l->feed + FEED_SIZE - 1);
    if (plant() != unfit_feed_record_left)
        *l->record = plant() == unfit_feed_record_of_buffer ? number
                     : plant() == unfit_feed_record_1;
    return plant() == unfit_feed_as_2 ? PLUNGEROWL_BAD_OPENING
                                      : PLUNGEROWL_UNFIT;
}

static uint64_t one_more(uint64_t number)
{
    switch (plant()) {
    case number_wraps: return number + 1;
    case number_of_8_bits: return (number + 1) & 0xFF;
    case number_of_16_bits: return (number + 1) & 0xFFFF;
    case number_of_32_bits: return (number + 1) & 0xFFFFFFFF;
    case number_of_63_bits: return (number + 1) & INT64_MAX;
    case number_stays_too_early:
        return number < UINT64_MAX - 1 ? number + 1 : number;
    default: return number < UINT64_MAX ? number + 1 : number;
    }
}

static unsigned open_late; /* K of a header whose opening comes too late */

static uint8_t open_lent(struct lent *l, unsigned k, uint64_t declared)
{
    return real_open(k, declared, l->desk, l->desk_len, l->sheet, l->sheet_len,
                     l->seen, l->seen_len, l->history, l->history_len);
}

/* The word that a header declares. */
static uint64_t header_word(const struct progress *p)
{
    static uint64_t last;
    uint64_t word = 0;
    unsigned i;

    for (i = 0; p->loose[2] == 2 && i < 8; i++)
        word |= (uint64_t)p->loose[4 + i]
                << 8 * (plant() == header_word_high_byte_first ? 7 - i : i);
    switch (plant()) {
    case header_word_ignored: return 0;
    case header_word_of_4_bytes: return word & UINT32_MAX;
    case header_word_of_one_byte: return word & 255;
    case header_word_of_last_log:
        last |= word;
        return last;
    default: return word;
    }
}

static void judge_header(struct lent *l, struct progress *p)
{
    static uint8_t seen[PLUNGEROWL_SEEN_SIZE(PLUNGEROWL_MAX_CLASSES)];
    static uint8_t old_history[PLUNGEROWL_HISTORY_SIZE];
    const uint8_t *unit = p->loose;
    uint64_t declared = header_word(p);
    unsigned k = unit[3];
    int version = unit[2] == 1 || (unit[2] == 2
                                   && plant() != header_version_2_refused)
                  || (unit[2] == 3 && plant() == header_version_3_taken);
    int in_range = k >= 1 && k <= PLUNGEROWL_MAX_CLASSES;
    uint8_t count[NUMBER] = { 0 };

    if (unit[0] != 0x4C
        || (unit[1] != 0x48 && plant() != header_signature_half)
        || (!version && plant() != header_version_any))
        k = 0;
    if (plant() == header_k_cut)
        k &= 127;
    if (plant() == header_k_over_as_64 && k > PLUNGEROWL_MAX_CLASSES)
        k = PLUNGEROWL_MAX_CLASSES;
    if (plant() == short_slip_as_2 && l->slip_len < PLUNGEROWL_SLIP_SIZE(k))
        k = 0;
    open_late = plant() == opens_with_the_record ? k : 0;
    memcpy(seen, l->seen, l->seen_len < sizeof seen ? l->seen_len
                                                    : sizeof seen);
    if (l->desk_len >= DESK_SIZE)
        memcpy(count, l->desk + ACCEPTED_AT, NUMBER);
    memcpy(old_history, l->history, l->history_len < sizeof old_history
                                    ? l->history_len : sizeof old_history);
    if (plant() == header_word_cut_to_k && k > 0 && k < 64)
        declared &= ((uint64_t)1 << k) - 1;
    p->answer = open_late ? PLUNGEROWL_OK : open_lent(l, k, declared);
    if (plant() == short_history_opened && l->history_len == 511)
        p->answer = PLUNGEROWL_OK;
    if ((plant() == feed_opens_desk_of_642 && l->desk_len == 642)
        || (plant() == feed_opens_desk_of_1397 && l->desk_len == 1397))
        p->answer = PLUNGEROWL_OK;
    p->opened = p->answer == PLUNGEROWL_OK;
    p->count = 0;
    if (p->opened) {
        if (plant() == opening_clears_slip)
            memset(l->slip, 0, l->slip_len);
        if (plant() == header_counted)
            p->number++;
        if (plant() == header_accepted)
            l->desk[ACCEPTED_AT] = 1;
        if (plant() == opening_leaves_seen)
            memcpy(l->seen, seen, PLUNGEROWL_SEEN_SIZE(k));
        if (plant() == opening_leaves_count)
            memcpy(l->desk + ACCEPTED_AT, count, NUMBER);
        if (plant() == opening_leaves_history)
            memcpy(l->history, old_history, sizeof old_history);
        return;
    }
    if (in_range && ((plant() == short_desk_as_11 && l->desk_len < DESK_SIZE)
                     || (plant() == short_sheet_as_11
                         && l->sheet_len < PLUNGEROWL_SHEET_SIZE(k))
                     || (plant() == short_seen_as_11
                         && l->seen_len < PLUNGEROWL_SEEN_SIZE(k))
                     || (plant() == short_history_as_11
                         && l->history_len < PLUNGEROWL_HISTORY_SIZE)))
        p->answer = PLUNGEROWL_UNFIT;
    switch (plant()) {
    case opens_with_2:
        if (l->desk_len > 0)
            l->desk[0] = 0;
        break;
    case header_2_at_record_1: p->number = 1; break;
    case header_2_opened: p->opened = 1; break;
    case header_2_keeps_loose: p->count = HEADER_SIZE - 1; break;
    default: break;
    }
}

/* How many locks the frame holds in which a record acquires one, else 0. */
static unsigned fed_depth(const struct lent *l, const struct progress *p)
{
    if (l->desk_len < DESK_SIZE || p->count < RECORD_SIZE
        || p->loose[2] >= PLUNGEROWL_CORES || p->loose[3] != PLUNGEROWL_ACQUIRE)
        return 0;
    return l->desk[DEPTHS_AT + current_frame(l->desk, p->loose[2])];
}

/* Whether the record is a release that a step may look at. */
static int is_fed_release(const struct lent *l, const struct progress *p)
{
    return l->desk_len >= DESK_SIZE && p->count == RECORD_SIZE
           && p->loose[2] < PLUNGEROWL_CORES
           && p->loose[3] == PLUNGEROWL_RELEASE && p->loose[5] < 2 * TRY;
}

/* The locks that a release in a feed may be for. */
static struct found find_fed(const struct lent *l, const struct progress *p)
{
    return find_locks(l->desk, current_frame(l->desk, p->loose[2]),
                      p->loose[4], p->loose[5]);
}

/* The mode of a release, as a wrong version hands it to the step. */
static void spoil_fed_mode(const struct lent *l, struct progress *p)
{
    struct found f;

    if (!is_fed_release(l, p))
        return;
    f = find_fed(l, p);
    if (plant() == feed_release_mode_0)
        p->loose[5] = 0;
    if (plant() == feed_release_without_try)
        p->loose[5] %= TRY;
    if (plant() == feed_release_not_compared && f.newest != NO_PLACE)
        p->loose[5] = (uint8_t)mode_at(l->desk, f.newest + DEPTH
                                       * current_frame(l->desk, p->loose[2]));
}

/* The answer to a release, as a wrong version gives it. */
static unsigned fed_answer(const struct lent *l, const struct progress *p,
                           const struct found *f, int released)
{
    int misfit = released && p->answer == PLUNGEROWL_NOT_HELD
                 && f->newest != NO_PLACE && l->desk_len >= DESK_SIZE;

    switch (plant()) {
    case feed_release_newest_that_fits:
        return misfit && f->newest_fit != NO_PLACE ? PLUNGEROWL_OK : p->answer;
    case feed_release_modes_as_3:
        return released && p->loose[5] > 0 ? PLUNGEROWL_BAD_RECORD : p->answer;
    case feed_misfit_passes:
    case feed_misfit_passes_in_logs:
        return misfit ? PLUNGEROWL_OK : p->answer;
    case feed_misfit_as_3: return misfit ? PLUNGEROWL_BAD_RECORD : p->answer;
    default: return p->answer;
    }
}

/* Numbers above the count are refused, in a feed or at its end. */
static int ties_fed(const struct lent *l, const struct progress *p)
{
    if (!are_long(l->desk, l->desk_len, l->sheet_len, l->seen_len))
        return 0;
    switch (plant()) {
    case feed_tie_kept:
    case feed_tie_kept_for_joined:
        return p->count == RECORD_SIZE && has_number_above(l->desk, l->seen);
    case feed_refuses_fresh_with_kinds:
        return number_at(l->desk + ACCEPTED_AT) == 0
               && highest_number(l->seen, l->desk[0]) > 0;
    case end_tie_kept:
    case end_tie_kept_for_joined:
        return p->count < RECORD_SIZE && has_number_above(l->desk, l->seen);
    default: return 0;
    }
}

static void judge_record(struct lent *l, struct progress *p)
{
    static struct call call;
    struct found f = { 0, 0, NO_PLACE, NO_PLACE, NO_PLACE, NO_PLACE };
    int released = is_fed_release(l, p);
    unsigned i, depth;

    if (plant() == feed_counts_by_its_number && l->desk_len >= DESK_SIZE)
        put_number(l->desk + ACCEPTED_AT, (uint32_t)p->number);
    depth = fed_depth(l, p);
    if (released)
        f = find_fed(l, p);
    spoil_fed_mode(l, p);
    p->answer = plant() == feed_8_at_20 && depth >= 20 ? PLUNGEROWL_FRAME_FULL
                : ties_fed(l, p) ? PLUNGEROWL_UNFIT
                : real_step(l->desk, l->desk_len, l->sheet, l->sheet_len,
                            l->seen, l->seen_len, l->history, l->history_len,
                            l->slip, l->slip_len, p->loose, p->count);
    p->answer = fed_answer(l, p, &f, released);
    if (plant() == short_history_stepped && p->answer == PLUNGEROWL_UNFIT
        && l->history_len == 511)
        p->answer = PLUNGEROWL_OK;
    if (plant() == feed_15_as_3 && p->answer == PLUNGEROWL_WRONG_SORT)
        p->answer = PLUNGEROWL_BAD_RECORD;
    if (plant() == feed_keeps_no_history && p->answer == PLUNGEROWL_OK)
        memset(l->history, 0, PLUNGEROWL_HISTORY_SIZE);
    if ((plant() == feed_8_at_49 && p->answer == PLUNGEROWL_FRAME_FULL)
        || (p->answer == PLUNGEROWL_UNFIT
            && ((plant() == feed_steps_desk_of_642 && l->desk_len == 642)
                || (plant() == feed_steps_desk_of_1397
                    && l->desk_len == 1397))))
        p->answer = PLUNGEROWL_OK;
    if (p->answer == PLUNGEROWL_FAULT && plant() >= feed_shows_second
        && plant() <= feed_shows_cut) {
        keep_old(&call, l->desk, l->sheet, l->seen, l->seen_len, l->history,
                 l->history_len, p->loose);
        spoil_shown(&call, l->slip, l->slip_len);
    }
    p->count = 0;
    p->number = one_more(p->number);
    switch (plant()) {
    case feed_sees_by_its_number:
        for (i = 0; p->answer <= PLUNGEROWL_FAULT
                    && i < PLUNGEROWL_SEEN_SIZE(l->desk[0]); i += NUMBER)
            if (number_at(l->seen + i) == number_at(l->desk + ACCEPTED_AT))
                put_number(l->seen + i, (uint32_t)p->number);
        break;
    case feed_shows_no_numbers:
        for (i = 0; p->answer == PLUNGEROWL_FAULT && i < l->slip[0]; i++)
            put_number(l->slip + 1 + ENTRY * i + TRIPLE, 0);
        break;
    case number_off_at_fault: p->number += p->answer == 1; break;
    case number_off_at_refusal: p->number -= p->answer > 1; break;
    case number_off_at_9: p->number -= p->answer == 9; break;
    case keeps_loose_of_stopping_record:
        if (p->answer != 0)
            p->count = RECORD_SIZE - 1;
        break;
    default: break;
    }
}

/* A wrong version does something before header or record is complete. */
static void judge_early(struct lent *l, struct progress *p)
{
    static const uint8_t begins[2][3] = { { 0x4C, 0x48, 1 },
                                          { 0x4C, 0x4B, 0 } };
    uint8_t byte = p->loose[p->count - 1];

    if (!p->opened) {
        if ((plant() == opens_at_first_byte && p->count == 1)
            || (plant() == opens_at_third_byte && p->count == 3))
            open_lent(l, 1, 0);
        if (plant() == feed_reads_desk_before_opening)
            peek(l->desk);
        if (plant() == feed_writes_sheet && l->sheet_len > 0)
            l->sheet[0] = 0;
        if (plant() == feed_writes_seen && l->seen_len > 0)
            l->seen[0] = 0;
        if ((plant() == header_byte_by_byte && byte != begins[0][p->count - 1])
            || (plant() == short_desk_at_first_byte
                && l->desk_len < DESK_SIZE)
            || (plant() == short_seen_at_first_byte && l->seen_len < NUMBER)) {
            p->answer = PLUNGEROWL_BAD_OPENING;
            p->count = 0;
        }
    } else {
        if (open_late > 0)
            open_lent(l, open_late, 0);
        open_late = 0;
        if ((plant() == record_byte_by_byte && p->count <= 2
             && byte != begins[1][p->count - 1])
            || (plant() == record_core_at_once && p->count == 3
                && byte >= PLUNGEROWL_CORES)
            || (plant() == record_of_five_bytes && p->count == 5))
            judge_record(l, p);
    }
}

static void take_byte(struct lent *l, struct progress *p, uint8_t byte)
{
    p->loose[p->count++] = byte;
    if (p->count < unit_size(p))
        judge_early(l, p);
    else if (p->opened)
        judge_record(l, p);
    else
        judge_header(l, p);
}

/* Whether a wrong version goes on behind an answer but 0. */
static int follows(const struct progress *p)
{
    return plant() == follows_stop
           || (plant() == follows_fault && p->answer == 1)
           || (plant() == follows_refusal && p->answer > 2)
           || (plant() == follows_9 && p->answer == 9)
           || (plant() == follows_5 && p->answer == 5)
           || (plant() == follows_15 && p->answer == 15)
           || (plant() == follows_17 && p->answer == 17);
}

static void take_piece(struct lent *l, struct progress *p,
                       const uint8_t *piece, size_t length)
{
    size_t i;

    for (i = 0; i < length; i++) {
        int lost = plant() == feed_release_mode_lost_at_cut && i == 0
                   && p->opened && p->count == RECORD_SIZE - 1
                   && p->loose[3] == PLUNGEROWL_RELEASE;

        if (p->answer != 0 && plant() == keeps_loose_behind_stop
            && p->count < MOST_LOOSE)
            p->loose[p->count++] = piece[i];
        else if (p->answer == 0 || follows(p))
            take_byte(l, p, lost ? 0 : piece[i]);
    }
    if (p->answer != 0 && p->count > 0 && plant() == follows_stop)
        p->count = 0;
}

/* A feed that has stopped goes on in a wrong version. */
static void spoil_stopped(struct lent *l, struct progress *p,
                          const uint8_t *piece, size_t length)
{
    static const struct progress fresh;

    switch (plant()) {
    case stopped_counts: p->number++; break;
    case stopped_goes_on: p->answer = p->opened ? 0 : p->answer; break;
    case stopped_starts_at_header:
        if (length >= 2 && piece[0] == 0x4C && piece[1] == 0x48)
            *p = fresh;
        break;
    case stopped_looks_at_desk:
        if (l->desk_len < DESK_SIZE)
            p->answer = PLUNGEROWL_UNFIT;
        break;
    case stopped_asks_desk_again:
        if (p->answer == 10 && l->desk_len > 1 && l->desk[1] == 0)
            p->answer = 0;
        break;
    case stopped_asks_count_again:
        if (p->answer == 9 && l->desk_len >= DESK_SIZE
            && number_at(l->desk + ACCEPTED_AT) < UINT32_MAX)
            p->answer = 0;
        break;
    case takes_all_into_loose:
        if (length > 0)
            p->loose[p->count++] = piece[0];
        break;
    default: break;
    }
}

/* An empty piece does something in a wrong version. */
static void spoil_empty(struct lent *l, struct progress *p)
{
    static const struct progress fresh;

    switch (plant()) {
    case empty_piece_resets: *p = fresh; break;
    case empty_piece_drops_loose: p->count = 0; break;
    case empty_piece_counts: p->number += p->opened; break;
    case empty_piece_looks_at_desk:
        if (p->opened && l->desk_len < DESK_SIZE) {
            p->answer = PLUNGEROWL_UNFIT;
            p->number++;
        }
        break;
    default: break;
    }
}

/* Loose bytes that the library would keep itself. */
static void spoil_loose(struct progress *p, int before)
{
    static uint8_t kept[PLUNGEROWL_MOST_LOOSE];

    if (plant() != loose_in_the_library)
        return;
    if (before)
        memcpy(p->loose, kept, p->count);
    else
        memcpy(kept, p->loose, p->count);
}

/* Write the record number; the answer. */
static uint8_t say(struct lent *l, const struct progress *p, int stopped,
                   size_t length)
{
    uint64_t number = p->number;
    unsigned answer = p->answer;

    if (plant() == number_off_at_clean && p->answer == 0)
        number++;
    if (plant() == empty_piece_says_0 && length == 0)
        number = 0;
    if (plant() == record_of_32_bits)
        number &= 0xFFFFFFFF;
    if (plant() == record_writes_behind)
        l->record[1] = 0;
    if (stopped && (plant() == stopped_says_0
                    || (plant() == stopped_empty_says_0 && length == 0)))
        answer = 0;
    if (stopped && plant() == stopped_says_10 && answer == 1)
        answer = 10;
    if (!(plant() == record_left_at_clean && p->answer == 0)
        && !(plant() == record_left_when_stopped && stopped))
        *l->record = number;
    return (uint8_t)answer;
}

/* The refusal at the end, as a wrong version gives it. */
static void spoil_end(struct lent *l, struct progress *p,
                      const struct progress *old)
{
    switch (plant()) {
    case end_answers_0: *p = *old; break;
    case end_answers_0_to_five:
        if (old->count == 5)
            *p = *old;
        break;
    case end_answers_0_to_nothing:
        if (!old->opened && old->count == 0)
            *p = *old;
        break;
    case end_answers_3_to_short_header:
        p->answer = PLUNGEROWL_BAD_RECORD;
        break;
    case end_answers_2_opened: p->answer = PLUNGEROWL_BAD_OPENING; break;
    case end_answers_3_for_11:
        p->answer = p->answer == 11 ? PLUNGEROWL_BAD_RECORD : p->answer;
        break;
    case end_answers_3_for_10:
        p->answer = p->answer == 10 ? PLUNGEROWL_BAD_RECORD : p->answer;
        break;
    case end_answers_10_for_11:
        if (p->answer == 11 && l->desk_len > 1 && l->desk[1] == 1)
            p->answer = 10;
        break;
    case end_answers_9:
        if (p->answer == 3 && number_at(l->desk + ACCEPTED_AT) == UINT32_MAX)
            p->answer = 9;
        break;
    case end_answers_3_for_short_seen:
        if (p->answer == 11 && l->seen_len == 255)
            p->answer = 3;
        break;
    case end_answers_3_for_a_number:
        if (p->answer == 11 && l->seen_len >= 256 && l->seen[252] == 1)
            p->answer = 3;
        break;
    case end_answers_0_to_short_history:
        if (p->answer == 11 && l->history_len == 511)
            *p = *old;
        break;
    case end_answers_3_to_unfit_history:
        if (p->answer == 11 && l->history_len >= 512 && l->history[0] == 25)
            p->answer = 3;
        break;
    case end_answers_3_to_part_of_long_header:
        if (!old->opened && old->count > 3)
            p->answer = 3;
        break;
    case end_opens_part_of_long_header:
        if (!old->opened && old->count > 3) {
            p->answer = open_lent(l, 8, 0);
            p->opened = p->answer == 0;
        }
        break;
    case end_keeps_loose_of_long_header:
        p->count = !old->opened && old->count > 3 ? old->count : 0;
        break;
    case end_opens:
        if (!old->opened)
            open_lent(l, 1, 0);
        break;
    case end_opens_short_header:
        if (old->count == 3 && !old->opened) {
            p->answer = open_lent(l, 1, 0);
            p->opened = p->answer == 0;
        }
        break;
    case end_closes_desk:
        if (l->desk_len > 1)
            l->desk[1] = 1;
        break;
    case end_writes_slip:
        if (l->slip_len > 0)
            l->slip[0] = 0;
        break;
    case end_writes_seen:
        if (l->seen_len > 0)
            l->seen[0] ^= 1;
        break;
    case end_counts:
        if (old->opened)
            l->desk[ACCEPTED_AT]++;
        break;
    case end_keeps_loose: p->count = old->opened ? old->count : 0; break;
    case end_keeps_loose_of_header:
        p->count = old->opened ? 0 : old->count;
        break;
    case end_number_not_counted: p->number = old->number; break;
    case end_number_two_more: p->number += old->opened; break;
    case end_number_0: p->number = 0; break;
    case end_2_at_record_1: p->number += !old->opened; break;
    case end_number_wraps: p->number = old->number + old->opened; break;
    default: break;
    }
}

static void take_end(struct lent *l, struct progress *p)
{
    static const struct progress fresh;
    const struct progress old = *p;

    if (!p->opened) {
        p->answer = PLUNGEROWL_BAD_OPENING;
        p->count = 0;
        spoil_end(l, p, &old);
    } else if (p->count > 0) {
        if (plant() == end_pads_record)
            while (p->count < RECORD_SIZE)
                p->loose[p->count++] = 0;
        judge_record(l, p);
        spoil_end(l, p, &old);
    } else if (plant() == end_starts_again) {
        *p = fresh;
    } else if (plant() == end_stops) {
        p->answer = PLUNGEROWL_CLOSED;
    } else if (plant() == end_answers_9_without_loose) {
        if (l->desk_len >= DESK_SIZE
            && number_at(l->desk + ACCEPTED_AT) == UINT32_MAX) {
            p->answer = PLUNGEROWL_COUNT_FULL;
            p->number = one_more(p->number);
        }
    } else if (plant() == end_answers_11_without_loose
               || plant() == end_answers_10_without_loose) {
        judge_record(l, p);
        if (p->answer != (plant() == end_answers_11_without_loose ? 11u : 10u))
            *p = old;
    }
}

/* Whether a wrong version forgets the answer that it has just given. */
static int forgets(unsigned answer, int ended)
{
    switch (plant()) {
    case header_2_forgotten: return !ended && answer == 2;
    case stop_by_9_forgotten: return !ended && answer == 9;
    case stop_by_16_forgotten: return !ended && answer == 16;
    case stop_by_10_forgotten: return !ended && answer == 10;
    case stop_by_11_forgotten: return !ended && answer == 11;
    case end_forgets_2: return ended && answer == 2;
    case end_forgets_3: return ended && answer == 3;
    case end_forgets_10: return ended && answer == 10;
    case end_forgets_11: return ended && answer == 11;
    default: return 0;
    }
}

/* A piece, or the end. */
static uint8_t feed_or_end(struct lent *l, const uint8_t *piece, size_t length,
                           int ended)
{
    uint8_t feed[PLUNGEROWL_FEED_SIZE] = { 0 };
    struct progress p, forgotten;
    uint8_t answer;
    int stopped, unfit;

    memcpy(feed, l->feed, l->feed_len < FEED_SIZE ? l->feed_len : FEED_SIZE);
    unfit = !fits_feed(feed, l->feed_len);
    if (unfit && (takes_unfit(feed, l->feed_len)
                  || (plant() == feed_fit_not_tested_at_end && ended)
                  || (plant() == feed_fit_not_tested_for_nothing && !ended
                      && length == 0))) {
        *l->record = 0;
        return PLUNGEROWL_OK;
    }
    p = load(feed);
    if (unfit || refuses_fit(feed))
        return refuse_feed(l, p.number);
    stopped = p.answer != 0;
    if (plant() == number_of_the_piece && !stopped)
        p.number = 0;
    if (plant() == loose_dropped_before_4c && length > 0 && piece[0] == 0x4C)
        p.count = 0;
    spoil_loose(&p, 1);
    if (stopped)
        spoil_stopped(l, &p, piece, length);
    if (!ended && length == 0)
        spoil_empty(l, &p);
    forgotten = p;
    if (ended || (plant() == empty_piece_ends && length == 0)) {
        if (!stopped)
            take_end(l, &p);
    } else {
        take_piece(l, &p, piece, length);
    }
    spoil_loose(&p, 0);
    answer = say(l, &p, stopped, length);
    save(l->feed, !stopped && forgets(p.answer, ended) ? &forgotten : &p);
    return answer;
}

uint8_t plungerowl_feed_start(uint8_t *feed, size_t feed_len)
{
    uint8_t old[PLUNGEROWL_FEED_SIZE];

    if (!is_feed_plant())
        return real_feed_start(feed, feed_len);
    if (plant() == start_short_by_one && feed_len == FEED_SIZE - 1)
        return PLUNGEROWL_OK;
    if (feed_len < FEED_SIZE) {
        if (plant() == start_short_writes && feed_len > 0)
            feed[0] = 0;
        return PLUNGEROWL_BAD_OPENING;
    }
    memcpy(old, feed, FEED_SIZE);
    memset(feed, 0, plant() == start_clears_all ? feed_len : FEED_SIZE);
    switch (plant()) {
    case start_leaves_answer: feed[ANSWER_AT] = old[ANSWER_AT]; break;
    case start_leaves_opened: feed[OPENED_AT] = old[OPENED_AT]; break;
    case start_leaves_loose:
        memcpy(feed + LOOSE_AT, old + LOOSE_AT, MOST_LOOSE);
        break;
    case start_leaves_number:
        memcpy(feed + NUMBER_AT, old + NUMBER_AT, 8);
        break;
    case start_writes_before: feed[-1] = 0; break;
    default: break;
    }
    return PLUNGEROWL_OK;
}

uint8_t plungerowl_feed(uint8_t *feed, size_t feed_len,
                        uint8_t *desk, size_t desk_len,
                        uint8_t *sheet, size_t sheet_len,
                        uint8_t *seen, size_t seen_len,
                        uint8_t *history, size_t history_len,
                        uint8_t *slip, size_t slip_len,
                        const uint8_t *piece, size_t piece_len,
                        uint64_t *record)
{
    struct lent l = { feed, feed_len, desk, desk_len, sheet, sheet_len,
                      seen, seen_len, history, history_len, slip, slip_len,
                      record };
    size_t taken = piece_len;
    uint8_t answer;

    if (!is_feed_plant())
        return real_feed(feed, feed_len, desk, desk_len, sheet, sheet_len,
                         seen, seen_len, history, history_len, slip, slip_len,
                         piece, piece_len, record);
    if (plant() == long_piece_cut_at_255)
        taken &= 255;
    if (plant() == long_piece_cut_at_4096 && taken > 4096)
        taken = 4096;
    if (plant() == long_piece_cut_at_65535)
        taken &= 65535;
    if (plant() == last_byte_lost && taken > 1)
        taken--;
    if (plant() == feed_clears_history_at_each_piece && history_len >= 512)
        memset(history, 0, 512);
    answer = feed_or_end(&l, piece, taken, 0);
    switch (plant()) {
    case feed_writes_past_16:
        if (feed_len > FEED_SIZE)
            feed[FEED_SIZE] = 0;
        break;
    case feed_writes_before: feed[-1] = 0; break;
    case feed_writes_slip:
        if (slip_len > 0 && answer == PLUNGEROWL_OK)
            slip[0] = 0;
        break;
    case feed_writes_piece:
        if (piece_len > 0)
            ((uint8_t *)piece)[0] ^= 1;
        break;
    case feed_reads_behind_feed: peek(feed + feed_len); break;
    case feed_reads_before_feed: peek(feed - 1); break;
    case feed_reads_behind_piece: peek(piece + piece_len); break;
    case feed_reads_before_piece: peek(piece - 1); break;
    default: break;
    }
    return answer;
}

uint8_t plungerowl_feed_end(uint8_t *feed, size_t feed_len,
                            uint8_t *desk, size_t desk_len,
                            uint8_t *sheet, size_t sheet_len,
                            uint8_t *seen, size_t seen_len,
                            uint8_t *history, size_t history_len,
                            uint8_t *slip, size_t slip_len, uint64_t *record)
{
    struct lent l = { feed, feed_len, desk, desk_len, sheet, sheet_len,
                      seen, seen_len, history, history_len, slip, slip_len,
                      record };
    uint64_t old_record = *record;
    int stopped = feed_len >= FEED_SIZE && feed[ANSWER_AT] != 0;
    uint8_t answer;

    if (!is_feed_plant())
        return real_feed_end(feed, feed_len, desk, desk_len, sheet, sheet_len,
                             seen, seen_len, history, history_len, slip,
                             slip_len, record);
    answer = feed_or_end(&l, feed, 0, 1);
    switch (plant()) {
    case record_left_at_the_end: *record = old_record; break;
    case end_writes_past_16:
        if (feed_len > FEED_SIZE)
            feed[FEED_SIZE] = 0;
        break;
    case end_number_off_at_clean: *record += answer == 0; break;
    case end_drops_stop:
        if (stopped)
            memset(feed, 0, FEED_SIZE);
        break;
    case end_repeats_as_3: return stopped ? PLUNGEROWL_BAD_RECORD : answer;
    case end_repeats_number_more: *record += stopped; break;
    case end_reads_behind_feed: peek(feed + feed_len); break;
    default: break;
    }
    return answer;
}

/* ------------------------------------------------------------- the balance */

enum { CLASSES = PLUNGEROWL_MAX_CLASSES, MOST_BYTES = PLUNGEROWL_MAX_PIECE_SIZE,
       MOST_RECORDS = PLUNGEROWL_MAX_PIECE_RECORDS };

static int is_balance_plant(void)
{
    return plant() >= right && plant() < join_one_not_tested;
}

static int starts_as_log(const uint8_t *piece, size_t length)
{
    return length >= 4 && piece[0] == 0x4C && piece[1] == 0x48 && piece[2] == 1;
}

/* Whether the piece is too long. */
static int is_long(size_t length)
{
    switch (plant()) {
    case balance_60000_refused: return length >= MOST_BYTES;
    case balance_59994_refused: return length >= MOST_BYTES - 6;
    case balance_60001_taken: return length > MOST_BYTES + 1;
    case balance_60006_taken: return length > MOST_BYTES + 6;
    case balance_60012_taken: return length > MOST_BYTES && length != 60012;
    case balance_limit_10000_bytes: return length > MOST_RECORDS;
    case balance_limit_4096_records: return length > 6 * 4096;
    case balance_limit_65535_bytes: return length > 65535;
    case balance_limit_65535_records: return length / 6 > 65535;
    case balance_limit_60000_records: return length / 6 > MOST_BYTES;
    case balance_limit_of_16_bits: return (length & 0xFFFF) > MOST_BYTES;
    case balance_limit_of_17_bits: return (length & 0x1FFFF) > MOST_BYTES;
    case balance_limit_of_20_bits: return (length & 0xFFFFF) > MOST_BYTES;
    case balance_limit_of_31_bits: return (length & 0x7FFFFFFF) > MOST_BYTES;
    case balance_limit_of_32_bits: return (uint32_t)length > MOST_BYTES;
    case balance_limit_signed: return (length & 0xFFFFFFFF) <= INT32_MAX
                                      && length > MOST_BYTES;
    case balance_no_limit: return 0;
    case balance_long_cut: return 0;
    default: return length > MOST_BYTES;
    }
}

/* Whether the piece is not a whole number of records. */
static int has_rest(const uint8_t *piece, size_t length)
{
    size_t rest = length % 6;

    switch (plant()) {
    case balance_60001_taken: return rest != 0 && length != 60001;
    case balance_rest_ignored: return 0;
    case balance_rest_1_taken: return rest > 1;
    case balance_rest_2_taken: return rest != 0 && rest != 2;
    case balance_rest_3_taken: return rest != 0 && rest != 3;
    case balance_rest_4_taken: return rest != 0 && rest != 4;
    case balance_rest_5_taken: return rest != 0 && rest != 5;
    case balance_rest_of_8_bits: return length % 256 % 6 != 0;
    case balance_rest_ignored_of_long: return rest != 0 && length < 4096;
    case balance_rest_ignored_of_short: return rest != 0 && length > 6;
    case balance_rest_padded: return 0;
    case balance_whole_by_2: return length % 2 != 0;
    case balance_whole_by_3: return length % 3 != 0;
    case balance_whole_by_4: return length % 4 != 0;
    case balance_whole_by_12: return length % 12 != 0;
    case balance_empty_refused: return rest != 0 || length == 0;
    case balance_one_record_refused: return rest != 0 || length == 6;
    case balance_log_taken:
    case balance_log_taken_by_its_k:
        return rest != (starts_as_log(piece, length) ? 4 : 0);
    default: return rest != 0;
    }
}

/* The refusal, as a wrong version gives it. */
static unsigned refusal(const uint8_t *piece, size_t length)
{
    int too_long = length > MOST_BYTES;

    switch (plant()) {
    case balance_refused_as_0: return 0;
    case balance_refused_as_1: return 1;
    case balance_refused_as_11: return 11;
    case balance_refused_as_12: return 12;
    case balance_refused_as_13: return 13;
    case balance_refused_as_15: return 15;
    case balance_refused_as_255: return 255;
    case balance_rest_as_3: return too_long ? 14 : 3;
    case balance_rest_as_2: return too_long ? 14 : 2;
    case balance_rest_as_11: return too_long ? 14 : 11;
    case balance_long_as_2: return too_long ? 2 : 14;
    case balance_long_as_3: return too_long ? 3 : 14;
    case balance_long_as_8: return too_long ? 8 : 14;
    case balance_long_as_9: return too_long ? 9 : 14;
    case balance_long_as_13: return too_long ? 13 : 14;
    case balance_log_as_2: return starts_as_log(piece, length) ? 2 : 14;
    default: return 14;
    }
}

/* Whether a record has the form that refusal 3 asks for. */
static int has_signature(const uint8_t *at)
{
    int signs = at[0] == 0x4C && at[1] == 0x4B;

    switch (plant()) {
    case balance_first_byte_any: return at[1] == 0x4B;
    case balance_second_byte_any: return at[0] == 0x4C;
    case balance_signature_any: return 1;
    case balance_signature_either: return at[0] == 0x4C || at[1] == 0x4B;
    case balance_signature_turned: return signs || (at[0] == 0x4B
                                                    && at[1] == 0x4C);
    case balance_signature_of_header: return signs || (at[0] == 0x4C
                                                       && at[1] == 0x48);
    case balance_signature_of_7_bits: return at[0] % 128 == 0x4C
                                             && at[1] % 128 == 0x4B;
    case balance_signature_small: return (at[0] | 32) == 'l'
                                         && (at[1] | 32) == 'k';
    default: return signs;
    }
}

static int has_core(unsigned core)
{
    switch (plant()) {
    case balance_core_8: return core <= 8;
    case balance_core_255: return core < 8 || core == 255;
    case balance_core_any: return 1;
    case balance_core_7_left_out: return core < 7;
    case balance_core_0_only: return core == 0;
    case balance_core_0_left_out: return core > 0 && core < 8;
    default: return core < 8;
    }
}

static int has_mode(unsigned mode)
{
    switch (plant()) {
    case balance_mode_6: return mode <= 6;
    case balance_mode_255: return mode <= 5 || mode == 255;
    case balance_mode_any: return 1;
    case balance_mode_of_3_bits: return mode % 8 <= 5;
    case balance_modes_0_to_2: return mode <= 2;
    case balance_mode_0_only: return mode == 0;
    case balance_reads_left_out: return mode == 0 || mode == TRY;
    case balance_mode_3_left_out: return mode <= 5 && mode != 3;
    case balance_mode_4_left_out: return mode <= 5 && mode != 4;
    case balance_mode_5_left_out: return mode <= 4;
    default: return mode <= 5;
    }
}

static int has_release_mode(unsigned mode)
{
    switch (plant()) {
    case balance_release_mode_0_only:
    case balance_release_mode_0_only_by_example: return mode == 0;
    case balance_release_modes_0_and_1: return mode <= 1;
    case balance_release_modes_0_and_3: return mode == 0 || mode == 3;
    case balance_release_modes_0_to_2: return mode <= 2;
    case balance_release_tries_only: return mode >= TRY && mode <= 5;
    case balance_release_mode_2_left_out: return mode <= 5 && mode != 2;
    case balance_release_mode_5_left_out: return mode <= 4;
    case balance_release_mode_6: return mode <= 6;
    case balance_release_mode_255: return mode <= 5 || mode == 255;
    case balance_release_mode_of_3_bits: return mode % 8 <= 5;
    case balance_release_mode_any: return 1;
    default: return mode <= 5;
    }
}

/* What a record counts at its class: 1, -1 or 0. */
static int weight_of(const uint8_t *at)
{
    unsigned kind = at[3];
    int plain = at[4] == 0 && at[5] == 0;

    if (!has_signature(at) || !has_core(at[2]))
        return 0;
    switch (plant()) {
    case balance_kind_2_acquires: kind = kind == 2 && plain ? 0 : kind; break;
    case balance_kind_2_releases: kind = kind == 2 && plain ? 1 : kind; break;
    case balance_kind_9_releases: kind = kind == 9 && plain ? 1 : kind; break;
    case balance_kinds_by_low_bit: kind = kind <= 9 ? kind % 2 : kind; break;
    case balance_kinds_over_0_release: kind = kind > 1 && plain ? 1 : kind;
        break;
    case balance_kinds_of_4_bits: kind %= 16; break;
    case balance_kinds_of_7_bits: kind %= 128; break;
    case balance_kind_10_releases: kind = kind == 10 ? 1 : kind; break;
    case balance_kind_255_releases: kind = kind == 255 ? 1 : kind; break;
    case balance_crosslock_acquires: kind = kind == 10 ? 0 : kind; break;
    case balance_commit_releases: kind = kind == 11 ? 1 : kind; break;
    case balance_crosslock_releases: kind = kind == 12 ? 1 : kind; break;
    case balance_events_with_a_class: kind = kind <= 9 && at[4] ? kind & 1
                                             : kind; break;
    case balance_events_with_a_mode: kind = kind > 1 && kind <= 9 && at[5] ? 1
                                            : kind; break;
    default: break;
    }
    if (kind == PLUNGEROWL_ACQUIRE && has_mode(at[5]))
        return 1;
    if (kind == PLUNGEROWL_RELEASE && has_release_mode(at[5]))
        return -1;
    return 0;
}

static int is_malformed(const uint8_t *at)
{
    return at[0] != 0x4C || at[1] != 0x4B || at[2] > 7
           || at[3] > PLUNGEROWL_CROSS_RELEASE || at[5] > 5
           || (at[3] > 1 && at[5] != 0)
           || (at[3] > 1 && at[3] < PLUNGEROWL_CROSS_ACQUIRE && at[4] != 0);
}

/* Where a class is counted; CLASSES for nowhere. */
static unsigned place_of(unsigned class_, unsigned k)
{
    switch (plant()) {
    case balance_class_64_at_0: return class_ == 64 ? 0 : class_;
    case balance_class_64_at_63: return class_ == 64 ? 63 : class_;
    case balance_class_255_at_0: return class_ == 255 ? 0 : class_;
    case balance_class_of_6_bits: return class_ % 64;
    case balance_class_of_7_bits: return class_ % 128;
    case balance_class_over_at_63: return class_ > 63 ? 63 : class_;
    case balance_class_0_left_out: return class_ == 0 ? CLASSES : class_;
    case balance_class_63_left_out: return class_ == 63 ? CLASSES : class_;
    case balance_32_classes: return class_ < 32 ? class_ : CLASSES;
    case balance_8_classes: return class_ < 8 ? class_ : CLASSES;
    case balance_classes_turned: return class_ < 64 ? 63 - class_ : CLASSES;
    case balance_classes_one_up: return class_ < 64 ? (class_ + 1) % 64
                                                    : CLASSES;
    case balance_classes_as_kinds: return class_ < 64 ? class_ / 2 : CLASSES;
    case balance_log_taken_by_its_k: return class_ < k ? class_ : CLASSES;
    default: return class_;
    }
}

/* A number that a wrong version keeps at each record, or gives at the end. */
static int32_t kept(int32_t sum)
{
    switch (plant()) {
    case balance_below_0_not_kept: return sum < 0 ? 0 : sum;
    case balance_at_most_1: return sum > 1 ? 1 : sum;
    case balance_at_most_20: return sum > 20 ? 20 : sum;
    case balance_at_most_48: return sum > 48 ? 48 : sum;
    case balance_at_most_127: return sum > 127 ? 127 : sum;
    case balance_at_most_255: return sum > 255 ? 255 : sum;
    case balance_at_most_4095: return sum > 4095 ? 4095 : sum;
    case balance_at_most_9999: return sum > 9999 ? 9999 : sum;
    case balance_at_least_1_below: return sum < -1 ? -1 : sum;
    case balance_at_least_128_below: return sum < -128 ? -128 : sum;
    case balance_at_least_4096_below: return sum < -4096 ? -4096 : sum;
    case balance_at_least_9999_below: return sum < -9999 ? -9999 : sum;
    default: return sum;
    }
}

static int32_t given(int32_t sum)
{
    switch (plant()) {
    case balance_below_0_as_0: return sum < 0 ? 0 : sum;
    case balance_below_0_as_most: return sum < 0 ? 10000 : sum;
    case balance_absolute: return sum < 0 ? -sum : sum;
    case balance_turned: return -sum;
    case balance_twice: return 2 * sum;
    case balance_as_sign: return (sum > 0) - (sum < 0);
    case balance_of_8_bits: return (int8_t)(uint8_t)sum;
    case balance_of_8_bits_unsigned: return (uint8_t)sum;
    case balance_of_12_bits: return (sum + 2048 + 65536) % 4096 - 2048;
    case balance_of_12_bits_unsigned: return sum < 0 ? sum : sum % 4096;
    case balance_of_13_bits: return (sum + 4096 + 65536) % 8192 - 4096;
    case balance_of_14_bits: return (sum + 8192 + 65536) % 16384 - 8192;
    case balance_of_16_bits_unsigned: return (uint16_t)sum;
    case balance_high_byte_first:
        return (int32_t)__builtin_bswap32((uint32_t)sum);
    default: return sum;
    }
}

/* Which records of so many are looked at. */
static int looks_at(size_t i, size_t count)
{
    switch (plant()) {
    case balance_first_left_out: return i > 0;
    case balance_last_left_out: return i + 1 < count;
    case balance_last_of_most_left_out: return i < MOST_RECORDS - 1;
    case balance_every_other: return i % 2 == 0;
    case balance_only_255: return i < 255;
    case balance_only_4096_bytes: return i < 4096 / 6;
    case balance_only_4096: return i < 4096;
    case balance_only_8192: return i < 8192;
    case balance_from_the_end: return count - i <= 9998;
    default: return 1;
    }
}

/* Whether a desk goes on, and whether it accepts the record. */
static int is_accepted(const uint8_t *at, int start, unsigned *answer)
{
    static uint8_t desk[PLUNGEROWL_DESK_SIZE], sheet[64 * 64];
    static uint8_t seen[4 * 64 * 64], slip[PLUNGEROWL_SLIP_SIZE(64)];
    static uint8_t history[PLUNGEROWL_HISTORY_SIZE];

    if (start)
        real_open(64, 0, desk, sizeof desk, sheet, sizeof sheet, seen,
                  sizeof seen, history, sizeof history);
    *answer = real_step(desk, sizeof desk, sheet, sizeof sheet, seen,
                        sizeof seen, history, sizeof history, slip, sizeof slip,
                        at, 6);
    return *answer <= 1;
}

/* What the piece had so far: of each class the core and the mode of the last
 * acquire, and whether there was one. */
struct last {
    unsigned core[256], mode[256];
    int is_acquired[256];
};

/* A release whose mode is another than that of the last acquire. */
static int is_misfit(const uint8_t *at, const struct last *last)
{
    unsigned mode = last->mode[at[4]];

    if (at[3] != PLUNGEROWL_RELEASE || !last->is_acquired[at[4]])
        return 0;
    return plant() == balance_same_origin_only
           ? (mode >= TRY) != (at[5] >= TRY) : mode != at[5];
}

/* Kinds 10 to 12 among the records of a piece. */
static int has_crosslock(const uint8_t *piece, size_t length)
{
    size_t i;

    for (i = 0; i + 6 <= length; i += 6)
        if (piece[i + 3] >= PLUNGEROWL_CROSS_ACQUIRE
            && !is_malformed(piece + i))
            return 1;
    return 0;
}

/* 1: the record is not counted; 2: nor are those behind it. */
static int passed_over(const uint8_t *at, size_t i, struct last *last)
{
    unsigned answer;
    int accepted;

    if (at[3] == PLUNGEROWL_ACQUIRE) {
        last->core[at[4]] = at[2];
        last->mode[at[4]] = at[5];
        last->is_acquired[at[4]] = 1;
    }
    if (plant() == balance_stops_at_crosslock && has_crosslock(at, 6))
        return 2;
    switch (plant()) {
    case balance_accepted_only:
    case balance_up_to_refusal:
    case balance_up_to_fault:
    case balance_not_full_only:
    case balance_held_only:
        accepted = is_accepted(at, i == 0, &answer);
        return plant() == balance_accepted_only ? !accepted
               : plant() == balance_up_to_refusal ? 2 * (answer > 3)
               : plant() == balance_up_to_fault ? 2 * (answer == 10)
               : plant() == balance_not_full_only ? answer == 8 : answer == 5;
    case balance_own_core_only:
        return at[3] == PLUNGEROWL_RELEASE && last->core[at[4]] != at[2];
    case balance_fitting_only:
    case balance_fitting_only_of_several:
    case balance_same_origin_only: return is_misfit(at, last);
    case balance_misfit_ends: return 2 * is_misfit(at, last);
    case balance_malformed_ends: return 2 * is_malformed(at);
    case balance_signature_ends: return 2 * (at[0] != 0x4C || at[1] != 0x4B);
    case balance_zeros_end: return 2 * (memcmp(at, "\0\0\0\0\0", 6) == 0);
    case balance_class_64_ends: return 2 * (at[4] >= 64);
    default: return 0;
    }
}

/* A malformed record, or another, does what it should not. */
static int spoil_sums(const uint8_t *at, size_t i, size_t count,
                      const struct last *last, int32_t sums[CLASSES],
                      size_t *skip)
{
    int bad = is_malformed(at);

    switch (plant()) {
    case balance_misfit_as_5: return !bad && is_misfit(at, last) ? 5 : 0;
    case balance_misfit_as_14: return !bad && is_misfit(at, last) ? 14 : 0;
    case balance_malformed_as_3: return bad ? 3 : 0;
    case balance_malformed_as_14: return bad ? 14 : 0;
    case balance_malformed_as_14_counted: return bad ? 14 : 0;
    case balance_malformed_first_as_14: return bad && i == 0 ? 14 : 0;
    case balance_malformed_last_as_14: return bad && i + 1 == count ? 14 : 0;
    case balance_class_64_as_4: return !bad && at[4] >= 64 ? 4 : 0;
    case balance_class_64_as_14: return !bad && at[4] >= 64 ? 14 : 0;
    case balance_malformed_clears:
        if (bad)
            memset(sums, 0, CLASSES * sizeof sums[0]);
        return 0;
    case balance_malformed_takes_next: *skip = (size_t)bad; return 0;
    case balance_acquire_sets_1:
        if (!bad && at[3] == PLUNGEROWL_ACQUIRE && at[4] < 64)
            sums[at[4]] = 1;
        return 0;
    case balance_release_sets_0:
        if (!bad && at[3] == PLUNGEROWL_RELEASE && at[4] < 64)
            sums[at[4]] = 0;
        return 0;
    default: return 0;
    }
}

/* The sums over whole records; an answer. */
static unsigned weigh(const uint8_t *piece, size_t count, unsigned k,
                      int32_t sums[CLASSES])
{
    struct last last = { { 0 }, { 0 }, { 0 } };
    size_t i, skip = 0;

    for (i = 0; i < count; i++) {
        const uint8_t *at = piece + 6 * i;
        int weight, over;
        unsigned place, answer;

        over = passed_over(at, i, &last);
        if (over == 2)
            break;
        if (over == 1 || !looks_at(i, count))
            continue;
        if (skip > 0) {
            skip = 0;
            continue;
        }
        weight = weight_of(at);
        if ((weight < 0 && plant() == balance_acquires_only)
            || (weight > 0 && plant() == balance_releases_only))
            weight = 0;
        place = place_of(at[4], k);
        if (place < CLASSES)
            sums[place] = kept(sums[place] + weight);
        answer = (unsigned)spoil_sums(at, i, count, &last, sums, &skip);
        if (answer != 0)
            return answer;
    }
    return 0;
}

/* Records wherever a signature is. */
static void weigh_anywhere(const uint8_t *piece, size_t length,
                           int32_t sums[CLASSES])
{
    size_t at = 0;

    while (at + 6 <= length) {
        if (piece[at] == 0x4C && piece[at + 1] == 0x4B) {
            if (piece[at + 4] < 64)
                sums[piece[at + 4]] += weight_of(piece + at);
            at += 6;
        } else {
            at++;
        }
    }
}

/* The answer to sums, as a wrong version gives it. */
static unsigned judge_sums(const int32_t sums[CLASSES])
{
    int below = 0, above = 0, full = 0;
    unsigned c;

    for (c = 0; c < CLASSES; c++) {
        below |= sums[c] < 0;
        above |= sums[c] > 0;
        full |= sums[c] > 48;
    }
    switch (plant()) {
    case balance_below_0_as_5: return below ? 5 : 0;
    case balance_below_0_as_14: return below ? 14 : 0;
    case balance_full_as_8: return full ? 8 : 0;
    case balance_uneven_as_1: return below || above;
    case balance_nothing_as_14: return !below && !above ? 14 : 0;
    default: return 0;
    }
}

/* What is written of the sums, over what was there. */
static void write_sums(const int32_t sums[CLASSES], const int met[CLASSES],
                       size_t length, int32_t *balances)
{
    static int32_t last[CLASSES];
    unsigned c, from = plant() == balance_first_not_written;
    unsigned to = CLASSES - (plant() == balance_last_not_written);

    for (c = from; c < to; c++) {
        if ((plant() == balance_left_where_not_met && !met[c])
            || (plant() == balance_left_where_even && sums[c] == 0)
            || (plant() == balance_left_of_nothing && length == 0))
            continue;
        if (plant() == balance_numbers_of_2_bytes)
            ((int16_t *)balances)[c] = (int16_t)sums[c];
        else if (plant() == balance_added_to_old)
            balances[c] = (int32_t)((uint32_t)balances[c] + (uint32_t)sums[c]);
        else if (plant() == balance_added_to_last)
            balances[c] = last[c] += given(sums[c]);
        else if (plant() == balance_summed_up)
            balances[c] = sums[c] + (c > 0 ? balances[c - 1] : 0);
        else
            balances[c] = given(sums[c]);
    }
}

/* What is written on a refusal. */
static void write_refused(const int32_t sums[CLASSES], int too_long,
                          int32_t *balances)
{
    unsigned c, from = plant() == balance_14_leaves_first;
    unsigned to = plant() == balance_14_leaves_last ? 63
                  : plant() == balance_14_clears_32 ? 32
                  : plant() == balance_14_clears_64_bytes ? 16
                  : plant() == balance_14_leaves_all ? 0
                  : plant() == balance_14_leaves_long && too_long ? 0
                  : plant() == balance_14_leaves_rest && !too_long ? 0
                  : CLASSES;

    for (c = from; c < to; c++)
        balances[c] = plant() == balance_14_with_sums
                      || (plant() == balance_14_with_sums_of_long && too_long)
                      || (plant() == balance_14_with_sums_of_rest && !too_long)
                      ? sums[c] : plant() == balance_14_writes_1_below ? -1 : 0;
}

/* What has nothing to do with the counting. */
static void spoil_around(const uint8_t *piece, size_t length, unsigned answer,
                         int32_t *balances)
{
    uint8_t *writable = (uint8_t *)piece;

    switch (plant()) {
    case balance_writes_65: balances[CLASSES] = 0; break;
    case balance_writes_65_on_14:
        if (answer == 14)
            balances[CLASSES] = 0;
        break;
    case balance_writes_before: balances[-1] = 0; break;
    case balance_writes_piece:
        if (length > 0)
            writable[0] ^= 1;
        break;
    case balance_writes_end_of_piece:
        if (length > 0)
            writable[length - 1] ^= 1;
        break;
    case balance_writes_piece_and_back:
        if (length > 0) {
            *(volatile uint8_t *)writable ^= 1;
            *(volatile uint8_t *)writable ^= 1;
        }
        break;
    case balance_writes_behind_piece: writable[length] = 0; break;
    case balance_writes_before_piece: writable[-1] = 0; break;
    case balance_reads_behind_piece: peek(piece + length); break;
    case balance_reads_before_piece: peek(piece - 1); break;
    case balance_reads_a_whole_record: peek(piece + 5); break;
    case balance_reads_behind_balances:
        peek((uint8_t *)(balances + CLASSES));
        break;
    case balance_reads_before_balances: peek((uint8_t *)balances - 1); break;
    default: break;
    }
}

/* Whether the pointers are refused as they stand, or for an earlier call. */
static int refuses_call(const uint8_t *piece, const int32_t *balances,
                        int refused)
{
    static int was_refused;
    int again = was_refused;

    was_refused = refused;
    switch (plant()) {
    case balance_piece_aligned_by_2: return (uintptr_t)piece % 2 != 0;
    case balance_piece_aligned_by_16: return (uintptr_t)piece % 16 != 0;
    case balance_numbers_aligned_by_8: return (uintptr_t)balances % 8 != 0;
    case balance_refused_behind_refused: return again;
    default: return 0;
    }
}

uint8_t plungerowl_balance(const uint8_t *piece, size_t piece_len,
                           int32_t balances[CLASSES])
{
    int32_t sums[CLASSES] = { 0 };
    int met[CLASSES] = { 0 };
    size_t length = piece_len, start = 0, i;
    unsigned answer, k = CLASSES;
    int refused;

    if (!is_balance_plant())
        return real_balance(piece, piece_len, balances);
    if (plant() == balance_length_of_8_bits)
        length &= 0xFF;
    if (plant() == balance_length_of_16_bits)
        length &= 0xFFFF;
    if (plant() == balance_length_of_32_bits)
        length &= 0xFFFFFFFF;
    refused = has_rest(piece, length) || is_long(length);
    refused |= refuses_call(piece, balances, refused);
    if (plant() == balance_refuses_crosslocks && !is_long(length))
        refused |= has_crosslock(piece, length);
    if ((plant() == balance_log_taken || plant() == balance_log_taken_by_its_k)
        && starts_as_log(piece, length)) {
        start = 4;
        k = piece[3];
    }
    if (plant() == balance_log_as_2 && starts_as_log(piece, length))
        refused = 1;
    if (length > MOST_BYTES && !(length < 70000 && plant() == balance_no_limit))
        length = MOST_BYTES; /* enough of it */
    for (i = 0; i + 6 <= length; i += 6)
        if (weight_of(piece + i) != 0 && piece[i + 4] < CLASSES)
            met[piece[i + 4]] = 1;
    answer = 0;
    if (plant() == balance_searches_signature)
        weigh_anywhere(piece, length, sums);
    else
        answer = weigh(piece + start, (length - start) / 6, k, sums);
    if (plant() == balance_rest_padded && length % 6 != 0) {
        uint8_t record[6] = { 0 };

        memcpy(record, piece + length / 6 * 6, length % 6);
        weigh(record, 1, k, sums);
    }
    if (refused) {
        write_refused(sums, piece_len > MOST_BYTES, balances);
        answer = refusal(piece, piece_len);
    } else {
        if (answer == 0)
            answer = judge_sums(sums);
        if (answer != 0 && plant() != balance_malformed_as_14_counted
            && plant() != balance_uneven_as_1)
            memset(sums, 0, sizeof sums);
        write_sums(sums, met, length, balances);
    }
    spoil_around(piece, piece_len, answer, balances);
    return (uint8_t)answer;
}

/* ---------------------------------------------------------------- the join */

static int is_join_plant(void)
{
    return plant() == right
           || (plant() >= join_one_not_tested
               && plant() <= join_declared_not_tested);
}

struct bench {
    const uint8_t *desk, *sheet, *seen;
    size_t desk_len, sheet_len, seen_len;
};

/* What a join was lent, in the order of its arguments too. */
enum { LENT = 10, READ = 6 };

struct joint {
    struct bench one, two;
    uint8_t *desk, *sheet, *seen, *slip;
    size_t desk_len, sheet_len, seen_len, slip_len;
    uint8_t *lent[LENT];
    size_t lengths[LENT];
};

/* A bench of bytes that may be changed. */
struct copied {
    uint8_t desk[DESK_SIZE];
    uint8_t sheet[PLUNGEROWL_SHEET_SIZE(CLASSES)];
    uint8_t seen[PLUNGEROWL_SEEN_SIZE(CLASSES)];
    uint8_t slip[PLUNGEROWL_SLIP_SIZE(CLASSES)];
};

static int is_long_bench(const struct bench *b)
{
    return are_long(b->desk, b->desk_len, b->sheet_len, b->seen_len);
}

static void copy_bench(struct copied *to, const struct bench *from)
{
    memcpy(to->desk, from->desk, DESK_SIZE);
    memcpy(to->sheet, from->sheet, PLUNGEROWL_SHEET_SIZE(from->desk[0]));
    memcpy(to->seen, from->seen, PLUNGEROWL_SEEN_SIZE(from->desk[0]));
}

/* By the real question, and by the real step with a record that draws nothing;
 * that leaves the cycle in the slip. */
static int is_fit(const struct copied *b)
{
    uint64_t word;
    uint32_t count;

    return real_ask(b->desk, DESK_SIZE, b->sheet, sizeof b->sheet, b->seen,
                    sizeof b->seen, 0, &word, &count) != PLUNGEROWL_UNFIT;
}

static int has_cycle(struct copied *b)
{
    static const uint8_t hard_on[] = { 0x4C, 0x4B, 0, PLUNGEROWL_HARD_ON,
                                       0, 0 };
    uint8_t desk[DESK_SIZE] = { 0 }, history[PLUNGEROWL_HISTORY_SIZE] = { 0 };

    desk[0] = b->desk[0];
    memcpy(desk + MARKS_AT, b->desk + MARKS_AT, CLASSES);
    return real_step(desk, DESK_SIZE, b->sheet, sizeof b->sheet, b->seen,
                     sizeof b->seen, history, sizeof history, b->slip,
                     sizeof b->slip, hard_on, sizeof hard_on)
           == PLUNGEROWL_FAULT;
}

static int has_own_cycle(const struct bench *b)
{
    static struct copied copy;

    copy_bench(&copy, b);
    return has_cycle(&copy);
}

/* A part of the fit test is left out, or done on both benches together. */
static void pass_unfit(struct copied *b, const struct bench *other, int second)
{
    unsigned pairs = b->desk[0] * b->desk[0], i;
    int same = other->desk[0] == b->desk[0];

    switch (plant()) {
    case join_sheets_not_tested:
        memset(b->sheet, 0, pairs);
        memset(b->seen, 0, NUMBER * pairs);
        break;
    case join_kinds_not_tested:
        for (i = 0; i < pairs; i++)
            if (b->sheet[i] > 15)
                b->sheet[i] = 15;
        break;
    case join_numbers_of_one_not_tested:
    case join_numbers_of_two_not_tested:
        if (second != (plant() == join_numbers_of_two_not_tested))
            break;
        /* fall through */
    case join_numbers_not_tested:
        for (i = 0; i < pairs; i++)
            put_number(b->seen + NUMBER * i, b->sheet[i] != 0);
        break;
    case join_marks_not_tested: memset(b->desk + MARKS_AT, 0, CLASSES); break;
    case join_origins_not_tested:
        memset(b->desk + ORIGINS_AT, 0, PLACES / 8);
        break;
    case join_cores_not_tested:
        memset(b->desk + PLUNGEROWL_STATES_AT, 0,
               MARKS_AT - PLUNGEROWL_STATES_AT);
        memset(b->desk + HELD_AT, 0, ACCEPTED_AT - HELD_AT);
        break;
    case join_closed_2_taken: b->desk[PLUNGEROWL_CLOSED_AT] &= 1; break;
    case join_crosslocks_not_tested:
        memset(b->desk + PLUNGEROWL_DECLARED_AT, 0,
               DESK_SIZE - PLUNGEROWL_DECLARED_AT);
        break;
    case join_kept_not_tested:
        put_number(b->desk + PLUNGEROWL_KEPT_AT, 0);
        break;
    case join_list_not_tested:
        for (i = 0; i < 8; i++)
            if ((b->desk[PLUNGEROWL_PROGRESS_AT + i]
                 & ~b->desk[PLUNGEROWL_DECLARED_AT + i]) == 0)
                b->desk[PLUNGEROWL_PROGRESS_AT + i] = 0;
        break;
    case join_progress_not_tested:
        memset(b->desk + PLUNGEROWL_PROGRESS_AT, 0, 8);
        break;
    case join_declared_not_tested:
        memset(b->desk + PLUNGEROWL_DECLARED_AT, 0, 16);
        break;
    case join_marks_fit_by_either:
        for (i = 0; i < CLASSES && same; i++)
            b->desk[MARKS_AT + i] |= other->desk[MARKS_AT + i];
        break;
    case join_pairs_fit_by_either:
        for (i = 0; i < pairs && same; i++)
            b->sheet[i] |= other->sheet[i];
        for (i = 0; i < NUMBER * pairs && same; i++)
            b->seen[i] |= other->seen[i];
        break;
    default: break;
    }
}

/* Numbers above a count are refused. */
static int ties_bench(const struct bench *b, const struct bench *other,
                      int second)
{
    uint32_t highest = highest_number(b->seen, b->desk[0]);
    uint32_t count = number_at(b->desk + ACCEPTED_AT);
    uint32_t counted = number_at(other->desk + ACCEPTED_AT);

    switch (plant()) {
    case join_tie_kept: return highest > count;
    case join_tie_of_one: return !second && highest > count;
    case join_tie_of_two: return second && highest > count;
    case join_tie_by_other_count: return highest > counted;
    case join_tie_by_sum: return highest > (uint64_t)count + counted;
    case join_tie_of_joined: return highest > count && highest > counted;
    default: return 0;
    }
}

static int bench_fits(const struct joint *j, int second)
{
    static struct copied copy;
    const struct bench *b = second ? &j->two : &j->one;
    const struct bench *other = second ? &j->one : &j->two;

    if (!is_long_bench(b))
        return 0;
    if (plant() == (second ? join_two_not_tested : join_one_not_tested))
        return 1;
    copy_bench(&copy, b);
    if (is_long_bench(other)) {
        pass_unfit(&copy, other, second);
        if (ties_bench(b, other, second))
            return 0;
    }
    return is_fit(&copy);
}

/* Whether what is to be written is long enough. */
static int has_room(const struct joint *j)
{
    unsigned k1 = j->one.desk[0], k2 = j->two.desk[0];
    unsigned large = k1 > k2 ? k1 : k2, small = k1 + k2 - large;
    unsigned sheet_k = large, seen_k = large, slip_k = large;
    size_t desk = DESK_SIZE, sheet, seen, slip;

    switch (plant()) {
    case join_room_for_64: sheet_k = seen_k = slip_k = CLASSES; break;
    case join_room_for_smaller: sheet_k = seen_k = slip_k = small; break;
    case join_room_for_first: sheet_k = seen_k = slip_k = k1; break;
    case join_room_for_second: sheet_k = seen_k = slip_k = k2; break;
    case join_room_for_both:
        if (k1 != k2)
            sheet_k = seen_k = slip_k = k1 + k2;
        break;
    case join_sheet_for_smaller: sheet_k = small; break;
    case join_seen_for_smaller: seen_k = small; break;
    case join_slip_for_smaller: slip_k = small; break;
    case join_sheet_for_first: sheet_k = k1; break;
    case join_slip_for_second: slip_k = k2; break;
    default: break;
    }
    sheet = PLUNGEROWL_SHEET_SIZE(sheet_k);
    seen = PLUNGEROWL_SEEN_SIZE(seen_k);
    slip = PLUNGEROWL_SLIP_SIZE(slip_k);
    switch (plant()) {
    case join_desk_short_by_one: desk--; break;
    case join_sheet_short_by_one: sheet--; break;
    case join_seen_short_by_one: seen--; break;
    case join_slip_short_by_one: slip--; break;
    case join_desk_of_578: desk = 578; break;
    case join_desk_of_642: desk = 642; break;
    case join_desk_of_1394: desk = 1394; break;
    case join_seen_of_k_x_k: seen = sheet; break;
    case join_slip_of_3: slip = 1 + 3 * (size_t)slip_k; break;
    case join_slip_not_tested:
    case join_slip_for_faults_only: slip = 0; break;
    default: break;
    }
    return j->desk_len >= desk && j->sheet_len >= sheet && j->seen_len >= seen
           && j->slip_len >= slip;
}

/* Whether the words that the benches declare differ, as a wrong version sees
 * it. */
static int are_other_words(const struct joint *j)
{
    const uint8_t *one = j->one.desk + PLUNGEROWL_DECLARED_AT;
    const uint8_t *two = j->two.desk + PLUNGEROWL_DECLARED_AT;
    unsigned i;

    switch (plant()) {
    case join_words_taken: return 0;
    case join_words_by_low_byte: return one[0] != two[0];
    case join_words_by_32_bits: return memcmp(one, two, 4) != 0;
    case join_words_of_one_in_two_taken:
        for (i = 0; i < 8; i++)
            if (one[i] & ~two[i])
                return 1;
        return 0;
    default: return memcmp(one, two, 8) != 0;
    }
}

/* A later refusal comes before an earlier one; 0 if it does not. */
static unsigned refused_early(const struct joint *j, int fit1, int fit2,
                              int room)
{
    int other = j->one.desk[0] != j->two.desk[0];
    int closed1 = j->one.desk[PLUNGEROWL_CLOSED_AT] == 1;
    int closed2 = j->two.desk[PLUNGEROWL_CLOSED_AT] == 1;
    int closed = closed1 || closed2, right_so_far = fit1 && fit2 && room;

    switch (plant()) {
    case join_twelve_before_11: return other ? 12 : 0;
    case join_words_before_11:
        return are_other_words(j) && !other ? 12 : 0;
    case join_twelve_before_fit: return other && room ? 12 : 0;
    case join_twelve_before_room: return other && fit1 && fit2 ? 12 : 0;
    case join_twelve_before_fit_of_two:
        return other && fit1 && room ? 12 : 0;
    case join_thirteen_before_11: return closed && !other ? 13 : 0;
    case join_thirteen_before_fit: return closed && !other && room ? 13 : 0;
    case join_thirteen_before_room:
        return closed && !other && fit1 && fit2 ? 13 : 0;
    case join_thirteen_before_fit_of_two:
        return closed && !other && fit1 && room ? 13 : 0;
    case join_thirteen_before_12: return closed && right_so_far ? 13 : 0;
    case join_thirteen_of_one_before_12:
        return closed1 && right_so_far ? 13 : 0;
    case join_thirteen_of_two_before_12:
        return closed2 && right_so_far ? 13 : 0;
    default: return 0;
    }
}

/* Benches in the middle of crosslocks, refused by a wrong version. */
static unsigned refused_in_progress(const struct joint *j)
{
    static const uint8_t none_in_progress[8];
    int one = memcmp(j->one.desk + PLUNGEROWL_PROGRESS_AT, none_in_progress, 8);
    int two = memcmp(j->two.desk + PLUNGEROWL_PROGRESS_AT, none_in_progress, 8);

    switch (plant()) {
    case join_progress_as_13: return one != 0 || two != 0 ? 13 : 0;
    case join_progress_as_11: return one != 0 || two != 0 ? 11 : 0;
    case join_kept_as_11:
        return number_at(j->one.desk + PLUNGEROWL_KEPT_AT) != 0
               || number_at(j->two.desk + PLUNGEROWL_KEPT_AT) != 0 ? 11 : 0;
    default: return 0;
    }
}

/* Benches that are refused for what is right. */
static unsigned refused_wrongly(const struct joint *j)
{
    const struct bench *one = &j->one, *two = &j->two;

    switch (plant()) {
    case join_own_cycle_as_13:
        return has_own_cycle(one) || has_own_cycle(two) ? 13 : 0;
    case join_own_cycle_of_two_as_13: return has_own_cycle(two) ? 13 : 0;
    case join_full_count_as_9:
        return number_at(one->desk + ACCEPTED_AT) == UINT32_MAX
               || number_at(two->desk + ACCEPTED_AT) == UINT32_MAX ? 9 : 0;
    case join_held_locks_as_7:
        return one->desk[DEPTHS_AT] > 0 || two->desk[DEPTHS_AT] > 0 ? 7 : 0;
    case join_itself_as_11:
        return one->desk == two->desk && one->sheet == two->sheet
               && one->seen == two->seen ? 11 : 0;
    case join_same_desk_as_11: return one->desk == two->desk ? 11 : 0;
    case join_same_sheet_as_11: return one->sheet == two->sheet ? 11 : 0;
    case join_same_seen_as_11: return one->seen == two->seen ? 11 : 0;
    default: return 0;
    }
}

static unsigned closed_answer(const struct joint *j)
{
    int closed1 = j->one.desk[PLUNGEROWL_CLOSED_AT] == 1;
    int closed2 = j->two.desk[PLUNGEROWL_CLOSED_AT] == 1;

    if (!closed1 && !closed2)
        return 0;
    switch (plant()) {
    case join_closed_as_10: return 10;
    case join_closed_as_11: return 11;
    case join_closed_as_12: return 12;
    case join_closed_as_1: return 1;
    case join_one_closed_taken: return closed2 ? 13 : 0;
    case join_two_closed_taken: return closed1 ? 13 : 0;
    case join_closed_if_both: return closed1 && closed2 ? 13 : 0;
    case join_closed_with_cycle_only:
        return has_own_cycle(&j->one) || has_own_cycle(&j->two) ? 13 : 0;
    default: return 13;
    }
}

/* The refusal, or 0. */
static unsigned refusal_of_join(const struct joint *j)
{
    int fit1, fit2, room = 0;
    unsigned k1, k2, early;

    if (plant() == join_reads_k_of_one_first)
        peek(j->one.desk);
    if (plant() == join_reads_k_of_two_first)
        peek(j->two.desk);
    fit1 = bench_fits(j, 0);
    fit2 = bench_fits(j, 1);
    if (!is_long_bench(&j->one) || !is_long_bench(&j->two))
        return plant() == join_room_as_2 ? 2 : 11;
    room = has_room(j);
    early = refused_early(j, fit1, fit2, room);
    if (early != 0)
        return early;
    if (!fit1 || !fit2)
        return plant() == join_unfit_as_2 ? 2 : plant() == join_unfit_as_10 ? 10
               : plant() == join_unfit_as_13 ? 13 : 11;
    k1 = j->one.desk[0];
    k2 = j->two.desk[0];
    if (!room)
        return plant() == join_room_as_2 ? 2
               : plant() == join_room_as_12 && k1 != k2 ? 12 : 11;
    if (k1 != k2 && plant() != join_other_k_taken
        && !(plant() == join_smaller_k_taken && k2 < k1)
        && !(plant() == join_larger_k_taken && k2 > k1))
        return plant() == join_other_k_as_11 ? 11
               : plant() == join_other_k_as_2 ? 2
               : plant() == join_other_k_as_13 ? 13 : 12;
    if (closed_answer(j) != 0 && plant() == join_words_behind_13)
        return closed_answer(j);
    if (k1 == k2 && are_other_words(j))
        return plant() == join_words_as_11 ? 11
               : plant() == join_words_as_13 ? 13 : 12;
    if (closed_answer(j) != 0)
        return closed_answer(j);
    if (refused_in_progress(j) != 0)
        return refused_in_progress(j);
    return refused_wrongly(j);
}

static unsigned joined_marks(unsigned one, unsigned two)
{
    switch (plant()) {
    case join_marks_of_one: return one;
    case join_marks_of_two: return two;
    case join_marks_of_both_only: return one & two;
    case join_marks_xor: return one ^ two;
    case join_marks_added: return (one + two) & 255;
    case join_marks_higher: return one > two ? one : two;
    case join_marks_of_one_first: return one != 0 ? one : two;
    case join_marks_soft_of_one: return one | (two & 15);
    case join_marks_safe_of_one: return one | (two & 204);
    case join_marks_unsafe_of_two: return (one & 51) | two;
    default: return one | two;
    }
}

static unsigned joined_kinds(unsigned one, unsigned two)
{
    unsigned both = one | two;

    switch (plant()) {
    case join_sheet_of_one: return one;
    case join_sheet_of_two: return two;
    case join_sheet_of_both_only: return one & two;
    case join_sheet_xor: return one ^ two;
    case join_sheet_added: return one + two;
    case join_sheet_higher: return one > two ? one : two;
    case join_sheet_of_one_first: return one != 0 ? one : two;
    case join_sheet_of_two_first: return two != 0 ? two : one;
    case join_sheet_lowest_kind: return both & (~both + 1);
    case join_sheet_without_weak:
        return both != PLUNGEROWL_SR ? both & ~(unsigned)PLUNGEROWL_SR : both;
    default: return both;
    }
}

/* The number of a pair, of the kinds that the benches have there. */
static uint32_t joined_number(const struct joint *j, uint32_t one, uint32_t two,
                              unsigned kinds1, unsigned kinds2)
{
    uint32_t count1 = number_at(j->one.desk + ACCEPTED_AT);
    uint32_t count2 = number_at(j->two.desk + ACCEPTED_AT);
    uint32_t joined = one != 0 ? one : two;
    unsigned lowest = (kinds1 | kinds2) & (~(kinds1 | kinds2) + 1);

    switch (plant()) {
    case join_number_of_two_first: return two != 0 ? two : one;
    case join_number_lower:
        return one == 0 || (two != 0 && two < one) ? two : one;
    case join_number_higher: return one > two ? one : two;
    case join_number_added: return one + two;
    case join_number_or: return one | two;
    case join_number_by_low_byte: return one % 256 != 0 ? one : two;
    case join_number_by_16_bits: return one % 65536 != 0 ? one : two;
    case join_number_by_24_bits: return (one & 0xFFFFFF) != 0 ? one : two;
    case join_number_of_one_only: return one;
    case join_number_of_two_only: return two;
    case join_number_always_1: return joined != 0;
    case join_number_0: return 0;
    case join_number_of_3_bytes: return joined & 0xFFFFFF;
    case join_number_of_31_bits: return joined & INT32_MAX;
    case join_number_by_lowest_kind: return kinds1 & lowest ? one : two;
    case join_number_behind_count_of_one:
        return one != 0 || two == 0 ? one : count1 + two;
    case join_number_at_most_count:
        return one > count1 ? count1 : one == 0 && two > count2 ? count2
               : joined;
    case join_number_where_kinds_differ:
        return kinds2 & ~kinds1 ? two : joined;
    default: return joined;
    }
}

/* The desk but for closed: the cores and counts that a wrong version keeps. */
static void make_joined_desk(const struct joint *j, uint8_t *desk)
{
    const uint8_t *one = j->one.desk, *two = j->two.desk;
    uint32_t count1 = number_at(one + ACCEPTED_AT);
    uint32_t count2 = number_at(two + ACCEPTED_AT), pairs = 0;
    unsigned i, last = CLASSES;

    memset(desk, 0, DESK_SIZE);
    if (plant() == join_copies_desk_of_one)
        memcpy(desk, one, DESK_SIZE);
    desk[0] = one[0];
    if (plant() != join_word_not_written)
        memcpy(desk + PLUNGEROWL_DECLARED_AT, one + PLUNGEROWL_DECLARED_AT,
               plant() == join_word_of_32_bits ? 4 : 8);
    if (plant() == join_marks_of_63_left_out)
        last = 63;
    if (plant() == join_marks_of_first_8)
        last = 8;
    for (i = 0; i < last; i++)
        desk[MARKS_AT + i] = (uint8_t)joined_marks(one[MARKS_AT + i],
                                                   two[MARKS_AT + i]);
    for (i = 0; i < PLUNGEROWL_SHEET_SIZE(one[0]); i++)
        pairs += j->one.sheet[i] != 0 || j->two.sheet[i] != 0;
    switch (plant()) {
    case join_keeps_states_of_one: memcpy(desk + 2, one + 2, 8); break;
    case join_keeps_states_of_two: memcpy(desk + 2, two + 2, 8); break;
    case join_keeps_depths_of_one:
        memcpy(desk + DEPTHS_AT, one + DEPTHS_AT, FRAMES);
        break;
    case join_keeps_held_of_one:
        memcpy(desk + HELD_AT, one + HELD_AT, PLACES);
        break;
    case join_keeps_held_of_two:
        memcpy(desk + HELD_AT, two + HELD_AT, PLACES);
        break;
    case join_keeps_origins_of_two:
        memcpy(desk + ORIGINS_AT, two + ORIGINS_AT, PLACES / 8);
        break;
    case join_keeps_count_of_one: put_number(desk + ACCEPTED_AT, count1); break;
    case join_keeps_count_of_two: put_number(desk + ACCEPTED_AT, count2); break;
    case join_count_of_both:
        put_number(desk + ACCEPTED_AT, count1 + count2);
        break;
    case join_count_of_pairs: put_number(desk + ACCEPTED_AT, pairs); break;
    case join_cores_with_hard_off: memset(desk + 2, 2, 8); break;
    case join_keeps_progress_of_one:
    case join_keeps_progress_of_two:
        memcpy(desk + PLUNGEROWL_PROGRESS_AT,
               (plant() == join_keeps_progress_of_one ? one : two)
               + PLUNGEROWL_PROGRESS_AT, 8);
        break;
    case join_keeps_kept_of_one:
    case join_keeps_kept_of_two:
        memcpy(desk + PLUNGEROWL_KEPT_AT,
               (plant() == join_keeps_kept_of_one ? one : two)
               + PLUNGEROWL_KEPT_AT, NUMBER);
        break;
    case join_keeps_since_of_one:
    case join_keeps_since_of_two:
        memcpy(desk + PLUNGEROWL_SINCE_AT,
               (plant() == join_keeps_since_of_one ? one : two)
               + PLUNGEROWL_SINCE_AT, NUMBER * CLASSES);
        break;
    default: break;
    }
}

static void make_joined_sheets(const struct joint *j, struct copied *b)
{
    unsigned k = j->one.desk[0], from, to;

    for (from = 0; from < k; from++) {
        for (to = 0; to < k; to++) {
            unsigned i = from * k + to, back = to * k + from;
            unsigned i2 = plant() == join_sheet_of_two_transposed ? back : i;
            unsigned n2 = plant() == join_number_of_two_transposed ? back : i;

            b->sheet[i] = (uint8_t)joined_kinds(j->one.sheet[i],
                                                j->two.sheet[i2]);
            put_number(b->seen + NUMBER * i,
                       joined_number(j, number_at(j->one.seen + NUMBER * i),
                                     number_at(j->two.seen + NUMBER * n2),
                                     j->one.sheet[i], j->two.sheet[i]));
            if (plant() == join_number_high_byte_first)
                turn_number(b->seen + NUMBER * i);
            if ((plant() == join_sheet_first_pair_left && i == 0)
                || (plant() == join_sheet_last_pair_left && i + 1 == k * k)
                || (plant() == join_sheet_diagonal_left_out && from == to)
                || (plant() == join_sheet_only_63_rows && from == 63))
                b->sheet[i] = 0;
            if (plant() == join_number_of_last_left && i + 1 == k * k)
                put_number(b->seen + NUMBER * i, 0);
        }
    }
}

/* The graph that a wrong version searches, instead of the joined one. */
static void spoil_graph(const struct joint *j, struct copied *b)
{
    unsigned k = b->desk[0], i;
    uint8_t *marks = b->desk + MARKS_AT;

    switch (plant()) {
    case join_fault_not_seen_of_one_class:
        for (i = 0; i < k; i++) {
            b->sheet[i * k + i] = 0;
            put_number(b->seen + NUMBER * (i * k + i), 0);
        }
        break;
    case join_searched_without_marks: memset(marks, 0, CLASSES); break;
    case join_searched_without_soft:
        for (i = 0; i < CLASSES; i++)
            marks[i] &= 15;
        break;
    case join_searched_without_hard:
        for (i = 0; i < CLASSES; i++)
            marks[i] &= 252;
        break;
    case join_searched_marks_of_one:
        memcpy(marks, j->one.desk + MARKS_AT, CLASSES);
        break;
    case join_searched_sheet_of_one:
        memcpy(b->sheet, j->one.sheet, k * k);
        memcpy(b->seen, j->one.seen, NUMBER * k * k);
        break;
    case join_searched_sheet_of_two:
        memcpy(b->sheet, j->two.sheet, k * k);
        memcpy(b->seen, j->two.seen, NUMBER * k * k);
        break;
    case join_searched_apart:
    case join_searched_apart_of_logs:
        copy_bench(b, has_own_cycle(&j->one) ? &j->one : &j->two);
        break;
    case join_joints_ignored:
    case join_joints_ignored_in_paths:
        for (i = 0; i < k * k; i++)
            b->sheet[i] = b->sheet[i] != 0 ? PLUNGEROWL_EN : 0;
        break;
    case join_lost_between_benches:
        if (k == 64)
            copy_bench(b, &j->one);
        break;
    default: break;
    }
}

/* Whether the joined graph is a fault; its cycle is left in the slip of b. */
static int is_joined_fault(const struct joint *j, struct copied *b)
{
    static struct copied searched;
    static int remembered;
    int fault;

    searched = *b;
    spoil_graph(j, &searched);
    fault = has_cycle(&searched);
    memcpy(b->slip, searched.slip, sizeof b->slip);
    remembered |= fault;
    switch (plant()) {
    case join_never_fault: return 0;
    case join_always_fault: return 1;
    case join_fault_remembered: return remembered;
    case join_searched_for_new_only:
        return fault && !has_own_cycle(&j->one) && !has_own_cycle(&j->two);
    default: return fault;
    }
}

/* The slip of a fault, as a wrong version has it; the right one is in b. */
static void spoil_joined_slip(const struct joint *j, struct copied *b)
{
    static struct copied own;
    unsigned k = b->desk[0], i, c;

    if (is_either(join_slip_of_own_cycle, join_slip_of_own_cycle_shown)
        && has_own_cycle(&j->one)) {
        copy_bench(&own, &j->one);
        memcpy(own.slip, b->slip, sizeof own.slip);
        has_cycle(&own);
        memcpy(b->slip, own.slip, 1 + ENTRY * (size_t)own.slip[0]);
    }
    if (plant() == join_slip_from_second_class)
        rotate(b->slip, 1);
    for (i = 0; i < b->slip[0]; i++) {
        uint8_t *entry = b->slip + 1 + ENTRY * i, *number = entry + TRIPLE;
        unsigned to = b->slip[1 + ENTRY * ((i + 1) % b->slip[0])];
        size_t pair = (size_t)entry[0] * k + to;
        int hold = entry[2] == PLUNGEROWL_SOURCE_HOLD;
        const uint8_t *one = j->one.seen + NUMBER * pair;
        const uint8_t *two = j->two.seen + NUMBER * pair;

        switch (plant()) {
        case join_slip_numbers_0: put_number(number, 0); break;
        case join_slip_numbers_of_one:
            put_number(number, hold ? number_at(one) : 0);
            break;
        case join_slip_numbers_of_two:
            put_number(number, hold ? number_at(two) : 0);
            break;
        case join_slip_numbers_by_kind:
            if (hold)
                put_number(number, number_at(j->one.sheet[pair] & entry[1]
                                             ? one : two));
            break;
        case join_slip_number_with_marks:
            put_number(number, number_at(b->seen + NUMBER * pair));
            break;
        case join_slip_high_byte_first: turn_number(number); break;
        default: break;
        }
    }
    if (plant() == join_slip_entries_with_3)
        for (i = 0; i < b->slip[0]; i++)
            for (c = 0; c < TRIPLE; c++)
                b->slip[1 + TRIPLE * i + c] = b->slip[1 + ENTRY * i + c];
}

/* What is written, over what was there. */
static void write_joined(const struct joint *j, const struct copied *b,
                         int fault)
{
    unsigned pairs = b->desk[0] * b->desk[0], i;
    uint8_t old_desk[DESK_SIZE];

    memcpy(old_desk, j->desk, DESK_SIZE);
    memcpy(j->desk, b->desk, DESK_SIZE);
    for (i = 0; i < pairs; i++) {
        uint8_t *number = j->seen + NUMBER * i;
        uint32_t old = number_at(number), now = number_at(b->seen + NUMBER * i);

        if (!(plant() == join_leaves_where_no_kinds && b->sheet[i] == 0))
            j->sheet[i] = plant() == join_adds_to_old_sheet
                          ? j->sheet[i] | b->sheet[i] : b->sheet[i];
        if ((plant() == join_keeps_old_numbers && old != 0 && now != 0)
            || (plant() == join_leaves_numbers_where_none && now == 0))
            continue;
        put_number(number, now);
    }
    j->desk[PLUNGEROWL_CLOSED_AT] = (uint8_t)fault;
    switch (plant()) {
    case join_k_not_written: j->desk[0] = old_desk[0]; break;
    case join_leaves_last_byte:
        j->desk[DESK_SIZE - 1] = old_desk[DESK_SIZE - 1];
        break;
    case join_leaves_origins:
        memcpy(j->desk + ORIGINS_AT, old_desk + ORIGINS_AT, PLACES / 8);
        break;
    case join_leaves_closed: j->desk[1] = fault ? 1 : old_desk[1]; break;
    case join_not_closed_at_fault: j->desk[1] = 0; break;
    case join_closed_at_once: j->desk[1] = 1; break;
    case join_closed_as_2: j->desk[1] = fault ? 2 : 0; break;
    case join_count_1_at_fault: j->desk[ACCEPTED_AT] = (uint8_t)fault; break;
    case join_count_highest:
        put_number(j->desk + ACCEPTED_AT, highest_number(b->seen, b->desk[0]));
        break;
    case join_adds_to_old_marks:
        for (i = 0; i < CLASSES; i++)
            j->desk[MARKS_AT + i] |= old_desk[MARKS_AT + i];
        break;
    case join_clears_all_of_desk:
        memset(j->desk + DESK_SIZE, 0, j->desk_len - DESK_SIZE);
        break;
    case join_clears_all_of_sheet:
        memset(j->sheet + pairs, 0, j->sheet_len - pairs);
        break;
    case join_clears_all_of_seen:
        memset(j->seen + NUMBER * pairs, 0, j->seen_len - NUMBER * pairs);
        break;
    case join_writes_seen_of_16_classes:
        if (j->seen_len > NUMBER * pairs)
            j->seen[NUMBER * pairs] = j->one.seen[NUMBER * pairs - 1];
        break;
    case join_slip_cleared_when_clean:
        if (!fault)
            j->slip[0] = 0;
        break;
    case join_slip_rest_cleared:
        if (fault)
            memset(j->slip, 0, PLUNGEROWL_SLIP_SIZE(b->desk[0]));
        break;
    case join_slip_rest_cleared_of_63:
        if (fault && b->slip[0] == 63)
            memset(j->slip, 0, PLUNGEROWL_SLIP_SIZE(b->desk[0]));
        break;
    default: break;
    }
    if (fault && plant() != join_slip_not_written)
        memcpy(j->slip, b->slip, 1 + ENTRY * (size_t)b->slip[0]);
}

/* A refused join changes something. */
static void spoil_refused_join(const struct joint *j, unsigned answer)
{
    uint8_t history[PLUNGEROWL_HISTORY_SIZE];

    switch (plant()) {
    case join_eleven_writes_desk:
        if (answer == 11 && j->desk_len > 0)
            j->desk[0] ^= 1;
        break;
    case join_eleven_clears_seen:
        if (answer == 11)
            memset(j->seen, 0, j->seen_len);
        break;
    case join_eleven_writes_slip:
        if (answer == 11 && j->slip_len > 0)
            j->slip[0] = 0;
        break;
    case join_twelve_writes_sheet:
        if (answer == 12)
            j->sheet[0] = 0;
        break;
    case join_twelve_opens:
        if (answer == 12)
            real_open(j->one.desk[0], 0, j->desk, j->desk_len, j->sheet,
                      j->sheet_len, j->seen, j->seen_len, history,
                      sizeof history);
        break;
    case join_thirteen_closes:
        if (answer == 13)
            j->desk[PLUNGEROWL_CLOSED_AT] = 1;
        break;
    case join_thirteen_writes_slip:
        if (answer == 13)
            j->slip[0] = 0;
        break;
    default: break;
    }
}

/* Reads and writes where a join must not. */
static void spoil_lent(const struct joint *j, int fault)
{
    const enum plant p = plant();
    unsigned i;

    for (i = 0; i < LENT; i++) {
        if (p == join_reads_behind_desk_1 + i)
            peek(j->lent[i] + j->lengths[i]);
        if (p == join_reads_before_desk_1 + i)
            peek(j->lent[i] - 1);
        if (p == join_writes_behind_desk_1 + i)
            j->lent[i][j->lengths[i]] = 0;
        if (i < READ && j->lengths[i] > 0
            && (p == join_writes_desk_1 + i
                || p == join_writes_desk_1_and_back + i)) {
            *(volatile uint8_t *)j->lent[i] ^= 1;
            if (p == join_writes_desk_1_and_back + i)
                *(volatile uint8_t *)j->lent[i] ^= 1;
        }
    }
    if (fault && is_either(join_closes_one_at_fault, join_closes_both_at_fault))
        j->lent[0][PLUNGEROWL_CLOSED_AT] = 1;
    if (fault && p == join_closes_both_at_fault)
        j->lent[3][PLUNGEROWL_CLOSED_AT] = 1;
    if (p == join_opens_one_after && j->lengths[0] >= DESK_SIZE)
        put_number(j->lent[0] + ACCEPTED_AT, 0);
}

/* The join of benches that are not refused. */
static unsigned join_benches(const struct joint *j)
{
    static struct copied b;
    unsigned k = j->one.desk[0];
    int fault;

    if (j->desk_len < DESK_SIZE || j->sheet_len < PLUNGEROWL_SHEET_SIZE(k)
        || j->seen_len < PLUNGEROWL_SEEN_SIZE(k) || k != j->two.desk[0])
        return PLUNGEROWL_OK; /* a wrong version that does not see it */
    memset(&b, 0, sizeof b);
    make_joined_desk(j, b.desk);
    make_joined_sheets(j, &b);
    memcpy(b.slip, j->slip, j->slip_len < sizeof b.slip ? j->slip_len
                                                        : sizeof b.slip);
    fault = is_joined_fault(j, &b);
    if (j->slip_len < PLUNGEROWL_SLIP_SIZE(k)
        && (fault || plant() != join_slip_for_faults_only))
        return plant() == join_slip_for_faults_only ? 11 : 0;
    if (fault)
        spoil_joined_slip(j, &b);
    write_joined(j, &b, fault);
    return (unsigned)fault;
}

uint8_t plungerowl_join(const uint8_t *desk1, size_t desk1_len,
                        const uint8_t *sheet1, size_t sheet1_len,
                        const uint8_t *seen1, size_t seen1_len,
                        const uint8_t *desk2, size_t desk2_len,
                        const uint8_t *sheet2, size_t sheet2_len,
                        const uint8_t *seen2, size_t seen2_len,
                        uint8_t *desk, size_t desk_len,
                        uint8_t *sheet, size_t sheet_len,
                        uint8_t *seen, size_t seen_len,
                        uint8_t *slip, size_t slip_len)
{
    const struct joint j = {
        { desk1, sheet1, seen1, desk1_len, sheet1_len, seen1_len },
        { desk2, sheet2, seen2, desk2_len, sheet2_len, seen2_len },
        desk, sheet, seen, slip, desk_len, sheet_len, seen_len, slip_len,
        { (uint8_t *)desk1, (uint8_t *)sheet1, (uint8_t *)seen1,
          (uint8_t *)desk2, (uint8_t *)sheet2, (uint8_t *)seen2, desk, sheet,
          seen, slip },
        { desk1_len, sheet1_len, seen1_len, desk2_len, sheet2_len, seen2_len,
          desk_len, sheet_len, seen_len, slip_len }
    };
    unsigned answer;

    if (!is_join_plant())
        return real_join(desk1, desk1_len, sheet1, sheet1_len, seen1, seen1_len,
                         desk2, desk2_len, sheet2, sheet2_len, seen2, seen2_len,
                         desk, desk_len, sheet, sheet_len, seen, seen_len,
                         slip, slip_len);
    answer = refusal_of_join(&j);
    if (answer == 13 && plant() == join_thirteen_joins)
        join_benches(&j);
    if (answer != 0)
        spoil_refused_join(&j, answer);
    else
        answer = join_benches(&j);
    spoil_lent(&j, answer == PLUNGEROWL_FAULT);
    return (uint8_t)answer;
}

/* -------------------------------------------------------------- crosslocks */

enum { MOST_KEPT = PLUNGEROWL_MAX_KEPT, HISTORY_SIZE = PLUNGEROWL_HISTORY_SIZE,
       MOST_IN_PROGRESS = PLUNGEROWL_MAX_IN_PROGRESS };
enum { ACQUIRE = PLUNGEROWL_ACQUIRE, RELEASE = PLUNGEROWL_RELEASE,
       EXIT_SOFT = PLUNGEROWL_EXIT_SOFT, EXIT_HARD = PLUNGEROWL_EXIT_HARD,
       CROSS = PLUNGEROWL_CROSS_ACQUIRE, COMMIT = PLUNGEROWL_COMMIT,
       UNCROSS = PLUNGEROWL_CROSS_RELEASE };

static int is_cross_plant(void)
{
    return plant() == right
           || (plant() >= cross_open_word_not_tested && plant() < none);
}

/* What a step was lent, and what it is about. */
struct crossing {
    uint8_t *desk, *sheet, *seen, *history, *slip;
    size_t history_len, slip_len;
    const uint8_t *record;
    unsigned k, core, kind, class_, mode, frame;
    uint64_t declared, progress;
    uint32_t kept;
};

static uint64_t bit_of(unsigned class_)
{
    return class_ < 64 ? (uint64_t)1 << class_ : 0;
}

static unsigned ones_of(uint64_t word)
{
    unsigned ones = 0;

    for (; word != 0; word &= word - 1)
        ones++;
    return ones;
}

static uint64_t classes_below(unsigned k)
{
    return k >= 64 ? UINT64_MAX : bit_of(k) - 1;
}

/* What a wrong version remembers of the visits of handlers: how many each frame
 * had, and in which of them an entry was struck out. */
static struct {
    unsigned long visits[24];
    unsigned long visit[PLUNGEROWL_MAX_KEPT];
    uint8_t entries[PLUNGEROWL_HISTORY_SIZE];
} memory;

/* ----- opening */

/* A word with classes that are not, and that a wrong version takes. */
static uint64_t word_taken(uint64_t classes, uint64_t declared)
{
    unsigned k = classes <= 64 ? (unsigned)classes : 64;

    switch (plant()) {
    case cross_open_word_not_tested: return declared & classes_below(k);
    case cross_open_class_k_taken: return declared & ~bit_of(k);
    case cross_open_word_cut: return declared & UINT32_MAX;
    default: return declared;
    }
}

static void put_word(uint8_t *at, uint64_t word)
{
    put_number(at, (uint32_t)word);
    put_number(at + NUMBER, (uint32_t)(word >> 32));
}

static uint64_t word_of(const uint8_t *at)
{
    return number_at(at) | (uint64_t)number_at(at + NUMBER) << 32;
}

static uint8_t cross_open(uint64_t classes, uint64_t declared,
                          uint8_t *desk, size_t desk_len,
                          uint8_t *sheet, size_t sheet_len,
                          uint8_t *seen, size_t seen_len,
                          uint8_t *history, size_t history_len)
{
    static uint8_t room[HISTORY_SIZE];
    uint8_t old[DESK_SIZE] = { 0 }, old_history[HISTORY_SIZE] = { 0 };
    size_t lent = history_len < HISTORY_SIZE ? history_len : HISTORY_SIZE;
    uint64_t taken = word_taken(classes, declared);
    int is_short = history_len < HISTORY_SIZE
                   && !(plant() == cross_open_history_short_by_one
                        && history_len == HISTORY_SIZE - 1)
                   && !(plant() == cross_open_history_of_510
                        && history_len == 510)
                   && plant() != cross_open_history_not_tested;
    unsigned i;
    uint8_t answer;

    if (desk_len >= DESK_SIZE)
        memcpy(old, desk, DESK_SIZE);
    memcpy(old_history, history, lent);
    if (plant() == cross_open_desk_of_1398 && desk_len == 1398)
        return PLUNGEROWL_OK;
    if ((plant() == cross_open_class_63_refused && declared >> 63)
        || (plant() == cross_open_word_of_64_refused && classes == 64
            && declared != 0)
        || (plant() == cross_open_word_0_refused && declared == 0))
        return PLUNGEROWL_BAD_OPENING;
    answer = real_open(classes, taken, desk, desk_len, sheet, sheet_len, seen,
                       seen_len, is_short ? history : room,
                       is_short ? history_len : HISTORY_SIZE);
    if (answer != PLUNGEROWL_OK) {
        if (plant() == cross_open_refused_clears_history)
            memset(history, 0, lent);
        return answer;
    }
    memset(history, 0, plant() == cross_open_clears_all_of_history
                       ? history_len : lent);
    memset(&memory, 0, sizeof memory);
    put_word(desk + PLUNGEROWL_DECLARED_AT, taken);
    switch (plant()) {
    case cross_open_word_of_32_bits:
        put_word(desk + PLUNGEROWL_DECLARED_AT, declared & UINT32_MAX);
        break;
    case cross_open_word_high_byte_first:
        for (i = 0; i < 8; i++)
            desk[PLUNGEROWL_DECLARED_AT + i]
                = (uint8_t)(declared >> (56 - 8 * i));
        break;
    case cross_open_word_not_written:
        put_word(desk + PLUNGEROWL_DECLARED_AT, 0);
        break;
    case cross_open_word_in_progress:
        put_word(desk + PLUNGEROWL_PROGRESS_AT, declared);
        break;
    case cross_open_leaves_history: memcpy(history, old_history, lent); break;
    case cross_open_leaves_last_entry:
        memcpy(history + 510, old_history + 510, 2);
        break;
    case cross_open_writes_behind_history: history[HISTORY_SIZE] = 0; break;
    case cross_open_writes_before_history: history[-1] = 0; break;
    case cross_open_leaves_progress:
        memcpy(desk + PLUNGEROWL_PROGRESS_AT, old + PLUNGEROWL_PROGRESS_AT, 8);
        break;
    case cross_open_leaves_kept:
        memcpy(desk + PLUNGEROWL_KEPT_AT, old + PLUNGEROWL_KEPT_AT, 4);
        break;
    case cross_open_leaves_since:
        memcpy(desk + PLUNGEROWL_SINCE_AT, old + PLUNGEROWL_SINCE_AT, 256);
        break;
    default: break;
    }
    return answer;
}

/* ----- the fit test */

/* Whether a class is a crosslock somewhere where a log cannot have brought it;
 * that is fit. */
static int is_strange(const uint8_t *desk, const uint8_t *sheet,
                      const uint8_t *history, uint64_t declared, uint32_t kept)
{
    unsigned k = desk[0], i, c;

    if (plant() == right)
        return 0; /* it is the one that runs long */
    for (i = 0; i < PLACES; i++)
        if (plant() == cross_fit_held_crosslock_refused
            && i % DEPTH < desk[DEPTHS_AT + i / DEPTH]
            && declared & bit_of(desk[HELD_AT + i] % 64))
            return 1;
    for (c = 0; c < k; c++) {
        if (!(declared & bit_of(c)))
            continue;
        if (plant() == cross_fit_marked_crosslock_refused
            && desk[MARKS_AT + c] != 0)
            return 1;
        for (i = 0; i < k; i++)
            if ((plant() == cross_fit_r_to_crosslock_refused
                 && sheet[i * k + c] & 5)
                || (plant() == cross_fit_s_from_crosslock_refused
                    && sheet[c * k + i] & 12))
                return 1;
    }
    for (i = 0; history != NULL && i < kept && i < MOST_KEPT; i++)
        if (plant() == cross_fit_entry_of_crosslock_refused
            && history[2 * i] != 0
            && declared & bit_of(history[2 * i + 1] % 64))
            return 1;
    return 0;
}

static int refuses_since(const uint8_t *desk, uint64_t progress, uint32_t kept)
{
    unsigned c;

    if (plant() == right)
        return 0; /* it is the one that runs long */
    for (c = 0; c < 64; c++) {
        uint32_t since = number_at(desk + PLUNGEROWL_SINCE_AT + NUMBER * c);
        int in_progress = (progress & bit_of(c)) != 0;

        if ((plant() == cross_fit_since_over_kept_refused && in_progress
             && since > kept)
            || (plant() == cross_fit_since_over_256_refused && in_progress
                && since > MOST_KEPT)
            || (plant() == cross_fit_since_of_others_refused && !in_progress
                && since > kept))
            return 1;
    }
    return 0;
}

/* What the desk says of crosslocks; history is NULL where none was lent. */
static int desk_crosses(const uint8_t *desk, const uint8_t *sheet,
                        const uint8_t *history)
{
    uint64_t declared = word_of(desk + PLUNGEROWL_DECLARED_AT);
    uint64_t progress = word_of(desk + PLUNGEROWL_PROGRESS_AT);
    uint64_t below = classes_below(desk[0]);
    uint64_t stray = progress & ~declared;
    uint32_t kept = number_at(desk + PLUNGEROWL_KEPT_AT);
    unsigned most = MOST_IN_PROGRESS;
    int asked = history == NULL;

    switch (plant()) {
    case cross_fit_declared_not_tested:
        below = asked ? below : UINT64_MAX;
        break;
    case cross_ask_declared_not_tested:
        below = asked ? UINT64_MAX : below;
        break;
    case cross_fit_declared_class_k: below |= bit_of(desk[0]); break;
    case cross_fit_declared_class_63: below |= bit_of(63); break;
    case cross_fit_progress_not_tested: stray = asked ? stray : 0; break;
    case cross_ask_progress_not_tested: stray = asked ? 0 : stray; break;
    case cross_fit_progress_of_any_class: stray = progress & ~below; break;
    case cross_fit_progress_of_32_bits: stray &= UINT32_MAX; break;
    case cross_fit_17_in_progress: most = 17; break;
    case cross_fit_16_refused: most = 15; break;
    case cross_fit_any_number_in_progress: most = asked ? most : 64; break;
    case cross_ask_list_not_tested: most = asked ? 64 : most; break;
    case cross_fit_kept_257: kept -= kept == 257; break;
    case cross_fit_kept_not_tested: kept = asked ? kept : 0; break;
    case cross_ask_kept_not_tested: kept = asked ? 0 : kept; break;
    case cross_fit_kept_of_16_bits: kept &= 0xFFFF; break;
    case cross_fit_kept_of_8_bits: kept &= 0xFF; break;
    case cross_fit_kept_256_refused: kept += kept == 256; break;
    case cross_fit_kept_without_progress_refused:
        if (kept > 0 && progress == 0)
            return 0;
        break;
    case cross_ask_refuses_progress:
        if (asked && progress != 0)
            return 0;
        break;
    case cross_ask_refuses_kept:
        if (asked && kept != 0)
            return 0;
        break;
    default: break;
    }
    return (declared & ~below) == 0 && stray == 0 && ones_of(progress) <= most
           && kept <= MOST_KEPT && !refuses_since(desk, progress, kept)
           && !is_strange(desk, sheet, history, declared, kept);
}

static int entry_fits(const uint8_t *entry, unsigned k)
{
    unsigned place = entry[0], lock = entry[1];
    unsigned most = plant() == cross_fit_place_25 ? 25
                    : plant() == cross_fit_place_24_refused ? 23 : 24;

    if (place == 0)
        return plant() != cross_fit_struck_out_refused
               && (lock == 0 || plant() == cross_fit_struck_out_with_lock);
    if (plant() == cross_fit_place_255 && place == 255)
        return 1;
    if (plant() == cross_fit_entry_of_lock_0_refused && lock == 0)
        return 0;
    return place <= most
           && (lock % 64 < k || (plant() == cross_fit_entry_of_class_k
                                 && lock % 64 == k))
           && (lock < 192 || plant() == cross_fit_entry_of_mode_3);
}

static int history_fits(const uint8_t *desk, const uint8_t *history)
{
    uint32_t kept = number_at(desk + PLUNGEROWL_KEPT_AT);
    unsigned i, from = 0;

    switch (plant()) {
    case cross_fit_history_not_tested: return 1;
    case cross_fit_first_entry_only: kept = kept > 1 ? 1 : kept; break;
    case cross_fit_last_entry_not_tested: kept -= kept == 256; break;
    case cross_fit_first_entry_not_tested: from = 1; break;
    case cross_fit_all_entries_tested: kept = 256; break;
    case cross_fit_entry_behind_tested: kept += kept < 256; break;
    case cross_fit_entries_of_8_bits: kept &= 255; break;
    default: break;
    }
    for (i = from; i < kept && i < MOST_KEPT; i++)
        if (!entry_fits(history + 2 * i, desk[0]))
            return 0;
    return 1;
}

/* ----- which refusal */

/* The answer of the real step to the record on a desk without crosslocks; for
 * kinds 10 to 12 that of a commit where all are crosslocks and none is in
 * progress, so 17 where 11, 10, 3 and 4 do not apply. The copies are as that
 * step leaves them. */
static struct copied plain;

static uint8_t plain_step(const struct crossing *x, size_t sheet_len,
                          size_t seen_len, size_t record_len)
{
    uint8_t record[PLUNGEROWL_RECORD_SIZE], history[HISTORY_SIZE] = { 0 };
    unsigned kind = x->kind;

    memcpy(plain.desk, x->desk, DESK_SIZE);
    memcpy(plain.sheet, x->sheet, PLUNGEROWL_SHEET_SIZE(x->k));
    memcpy(plain.seen, x->seen, PLUNGEROWL_SEEN_SIZE(x->k));
    memcpy(plain.slip, x->slip, x->slip_len < sizeof plain.slip
                                ? x->slip_len : sizeof plain.slip);
    memset(plain.desk + PLUNGEROWL_DECLARED_AT, 0,
           DESK_SIZE - PLUNGEROWL_DECLARED_AT);
    if (record_len != PLUNGEROWL_RECORD_SIZE)
        return real_step(plain.desk, DESK_SIZE, plain.sheet, sheet_len,
                         plain.seen, seen_len, history, sizeof history,
                         plain.slip, x->slip_len, x->record, record_len);
    memcpy(record, x->record, sizeof record);
    if (kind >= CROSS && kind <= UNCROSS) {
        put_word(plain.desk + PLUNGEROWL_DECLARED_AT, classes_below(x->k));
        record[3] = COMMIT;
        if (is_either(cross_mode_taken, cross_mode_of_commit_taken)
            && (kind == COMMIT || plant() == cross_mode_taken))
            record[5] = 0;
    }
    return real_step(plain.desk, DESK_SIZE, plain.sheet, sheet_len, plain.seen,
                     seen_len, history, sizeof history, plain.slip,
                     x->slip_len, record, sizeof record);
}

/* 15 applies. */
static int is_wrong_sort(const struct crossing *x)
{
    uint64_t bit = bit_of(x->class_);
    int crosslock = (x->declared & bit) != 0;

    if (x->class_ >= x->k || (x->kind > RELEASE && x->kind < CROSS)
        || x->kind > UNCROSS)
        return 0;
    switch (plant()) {
    case cross_15_not_for_acquires:
        return crosslock != (x->kind >= CROSS)
               && !(x->kind == ACQUIRE && x->mode < TRY);
    case cross_15_not_for_tries:
        return crosslock != (x->kind >= CROSS)
               && !(x->kind == ACQUIRE && x->mode >= TRY);
    case cross_15_not_for_releases:
        return crosslock != (x->kind >= CROSS) && x->kind != RELEASE;
    case cross_15_not_for_crosslocks:
        return crosslock != (x->kind >= CROSS) && x->kind != CROSS;
    case cross_15_not_for_commits:
        return crosslock != (x->kind >= CROSS) && x->kind != COMMIT;
    case cross_15_not_for_crosslock_releases:
        return crosslock != (x->kind >= CROSS) && x->kind != UNCROSS;
    case cross_15_of_32_bits:
        return ((x->declared & UINT32_MAX & bit) != 0) != (x->kind >= CROSS);
    default: return crosslock != (x->kind >= CROSS);
    }
}

/* 19 applies. */
static int is_history_full(const struct crossing *x)
{
    uint32_t most = plant() == cross_19_at_255 ? 255 : MOST_KEPT;

    switch (plant()) {
    case cross_19_never:
    case cross_19_wraps: return 0;
    case cross_19_for_tries:
        return x->kind == ACQUIRE && x->progress != 0 && x->kept == most;
    case cross_19_without_progress:
        return x->kind == ACQUIRE && x->mode < TRY && x->kept == most;
    case cross_19_for_crosslocks:
        return (x->kind == CROSS || (x->kind == ACQUIRE && x->mode < TRY
                                     && x->progress != 0)) && x->kept == most;
    case cross_19_of_16_bits:
        return 0;
    default:
        return x->kind == ACQUIRE && x->mode < TRY && x->progress != 0
               && x->kept >= most;
    }
}

static unsigned most_in_progress(void)
{
    switch (plant()) {
    case cross_list_of_15: return 15;
    case cross_list_of_17: return 17;
    case cross_list_without_end: return 65;
    default: return MOST_IN_PROGRESS;
    }
}

/* 16, 17 or 18, or 0. */
static unsigned list_refusal(const struct crossing *x)
{
    int in_progress = (x->progress & bit_of(x->class_)) != 0;
    uint64_t counted = plant() == cross_list_by_32_bits
                       ? x->progress & UINT32_MAX : x->progress;
    int full = ones_of(counted) >= most_in_progress();

    if (x->kind == CROSS) {
        if (full && plant() == cross_18_before_16)
            return 18;
        if (in_progress && !is_either(cross_list_twice, cross_twice_renews))
            return 16;
        return full && !(in_progress && plant() == cross_twice_renews) ? 18 : 0;
    }
    if (x->kind == COMMIT && plant() == cross_commit_of_any)
        return 0;
    if (x->kind == UNCROSS && plant() == cross_release_of_any)
        return 0;
    return in_progress ? 0 : 17;
}

/* A record of kinds 10 to 12 that is refused for what is right, or 0. */
static unsigned refused_in_state(const struct crossing *x)
{
    unsigned state = x->desk[PLUNGEROWL_STATES_AT + x->core];
    int full = x->desk[DEPTHS_AT + x->frame] == DEPTH;

    switch (plant()) {
    case cross_needs_room: return x->kind == CROSS && full ? 8 : 0;
    case cross_commit_needs_room: return x->kind == COMMIT && full ? 8 : 0;
    case cross_not_in_handlers: return state >= 4 ? 6 : 0;
    case cross_not_with_hard_off:
        return state == 2 || state == 3 || state == 5 ? 6 : 0;
    case cross_commit_not_in_hard:
        return x->kind == COMMIT && state >= 6 ? 6 : 0;
    default: return 0;
    }
}

static unsigned sort_answer(const struct crossing *x)
{
    switch (plant()) {
    case cross_15_as_3: return 3;
    case cross_15_as_4: return 4;
    case cross_15_as_5_for_releases: return x->kind == RELEASE ? 5 : 15;
    case cross_15_as_17: return x->kind > CROSS ? 17 : 15;
    default: return 15;
    }
}

/* The refusal, or 0, of a record of kinds 10 to 12. */
static unsigned refusal_of_cross(const struct crossing *x, unsigned answer)
{
    int count_full = number_at(x->desk + ACCEPTED_AT) == UINT32_MAX;
    unsigned list = list_refusal(x), state;

    if (plant() == cross_kinds_as_3
        || (plant() == cross_release_as_3 && x->kind == UNCROSS))
        return answer == 11 || answer == 10 ? answer : 3;
    if (answer == 3 && plant() == cross_15_before_3 && is_wrong_sort(x))
        return 15;
    if (answer == 3 && plant() == cross_mode_of_class_k_as_4
        && x->class_ >= x->k)
        return 4;
    if (answer == 10 && plant() == cross_15_before_10 && is_wrong_sort(x))
        return 15;
    if (answer == 4 && is_either(cross_class_k_as_15, cross_class_k_as_17))
        return plant() == cross_class_k_as_15 ? 15 : 17;
    if (answer != 17)
        return answer;
    if (count_full && plant() == cross_15_behind_9)
        return 9;
    if (is_wrong_sort(x)) {
        if (plant() == cross_15_behind_17 && x->kind > CROSS)
            return 17;
        if (x->kind == CROSS && ones_of(x->progress) == MOST_IN_PROGRESS
            && is_either(cross_15_behind_18, cross_18_before_15))
            return 18;
        return sort_answer(x);
    }
    state = refused_in_state(x);
    if (state != 0)
        return state;
    if (count_full && list != 0
        && plant() == (list == 16 ? cross_9_before_16 : list == 17
                       ? cross_9_before_17 : cross_9_before_18))
        return 9;
    if (list != 0)
        return list;
    if (is_history_full(x))
        return 19;
    if (count_full
        && !(plant() == cross_9_not_for_crosslocks && x->kind == CROSS)
        && !(plant() == cross_9_not_for_commits && x->kind == COMMIT)
        && !(plant() == cross_9_not_for_crosslock_releases
             && x->kind == UNCROSS))
        return 9;
    return 0;
}

/* The same of a record of another kind, with the plain answer. */
static unsigned refusal_of_lock(const struct crossing *x, unsigned answer)
{
    int count_full = number_at(x->desk + ACCEPTED_AT) == UINT32_MAX;

    if (answer == 3 && plant() == cross_kind_13_taken && x->kind == 13)
        return 0;
    if (answer == 11 || answer == 10 || answer == 3 || answer == 4)
        return answer;
    if (plant() == cross_19_before_15 && is_history_full(x))
        return 19;
    if (is_wrong_sort(x)
        && !(answer == 5 && plant() == cross_15_behind_5)
        && !(answer == 8 && plant() == cross_15_behind_8)
        && !(count_full && plant() == cross_15_behind_9))
        return sort_answer(x);
    if (answer == 8 && plant() == cross_19_before_8 && is_history_full(x))
        return 19;
    if (answer > 1 && answer != 9)
        return answer;
    if (is_history_full(x) && !(answer == 9 && plant() == cross_9_before_19))
        return 19;
    return answer;
}

/* ----- what a record does */

static uint32_t number_to_write(const struct crossing *x)
{
    uint32_t count = number_at(x->desk + ACCEPTED_AT);

    switch (plant()) {
    case cross_number_of_count_before: return count - 1;
    case cross_number_of_commit_as_1: return x->kind == COMMIT ? 1 : count;
    case cross_number_of_16_bits: return count & 0xFFFF;
    default: return count;
    }
}

static void draw_cross(const struct crossing *x, unsigned from, unsigned to,
                       unsigned kind)
{
    unsigned pair = from * x->k + to;
    uint8_t *number = x->seen + NUMBER * pair;

    if (plant() == cross_takes_over_kinds)
        x->sheet[pair] = 0;
    x->sheet[pair] |= (uint8_t)kind;
    if (plant() == cross_number_not_written)
        put_number(number, 1);
    else if (number_at(number) == 0 || plant() == cross_number_renewed
             || (plant() == cross_number_of_commit_renewed
                 && x->kind == COMMIT))
        put_number(number, number_to_write(x));
}

/* From the locks of a frame to the crosslock. */
static void take_from(const struct crossing *x, unsigned frame)
{
    unsigned depth = x->desk[DEPTHS_AT + frame], i;

    for (i = 0; i < depth; i++) {
        unsigned held = x->desk[HELD_AT + DEPTH * frame + i];
        unsigned kind = kind_of(held / 64, 0);

        if ((plant() == cross_takes_from_newest && i + 1 < depth)
            || (plant() == cross_takes_from_oldest && i > 0)
            || (plant() == cross_takes_from_first_20 && i >= 20)
            || (plant() == cross_takes_from_no_try
                && bit_at(x->desk, DEPTH * frame + i))
            || (plant() == cross_elsewhere_held_draws_nothing
                && x->declared & bit_of(held % 64))
            || plant() == cross_takes_from_nothing)
            continue;
        if (plant() == cross_takes_as_er)
            kind = kind_of(held / 64, 2);
        if (plant() == cross_takes_as_en)
            kind = PLUNGEROWL_EN;
        if (plant() == cross_takes_as_sn)
            kind = PLUNGEROWL_SN;
        if (plant() == cross_weak_at_crosslock)
            kind = kind_of(held / 64, 2);
        if (plant() == cross_takes_back)
            draw_cross(x, x->class_, held % 64, kind);
        else
            draw_cross(x, held % 64, x->class_, kind);
    }
}

static void begin_cross(const struct crossing *x)
{
    uint8_t *since = x->desk + PLUNGEROWL_SINCE_AT + NUMBER * x->class_;
    unsigned i;

    if (plant() == cross_takes_from_all_frames) {
        for (i = 0; i < 3; i++)
            take_from(x, 3 * x->core + i);
    } else {
        take_from(x, plant() == cross_takes_from_task ? 3 * x->core
                     : plant() == cross_takes_from_core_0 ? x->frame % 3
                     : x->frame);
    }
    for (i = 0; plant() == cross_takes_from_crosslocks && i < x->k; i++)
        if (x->progress & bit_of(i))
            draw_cross(x, i, x->class_, PLUNGEROWL_EN);
    put_word(x->desk + PLUNGEROWL_PROGRESS_AT,
             x->progress | bit_of(x->class_));
    if (plant() == cross_since_of_class_0)
        since = x->desk + PLUNGEROWL_SINCE_AT;
    if (!(plant() == cross_since_kept_as_it_was && number_at(since) != 0)
        && plant() != cross_since_not_written)
        put_number(since, plant() == cross_since_of_8_bits ? x->kept & 255
                          : x->kept);
    if (plant() == cross_held_too && x->desk[DEPTHS_AT + x->frame] < DEPTH)
        x->desk[HELD_AT + DEPTH * x->frame
                + x->desk[DEPTHS_AT + x->frame]++] = (uint8_t)x->class_;
}

/* Whether a wrong version takes the entry for one of the committing frame. */
static int is_of_frame(const struct crossing *x, unsigned place)
{
    if (place == 0)
        return 0;
    switch (plant()) {
    case cross_commits_all_cores:
    case cross_random_commits_other_core:
        return (place - 1) % 3 == x->frame % 3;
    case cross_commits_all_frames:
    case cross_commits_of_core_only: return (place - 1) / 3 == x->core;
    case cross_commits_task_frame: return place == 1 + 3 * x->core;
    case cross_commits_of_place_before: return place == x->frame;
    default: return place == 1 + x->frame;
    }
}

static int is_held_now(const struct crossing *x, unsigned class_)
{
    unsigned i;

    for (i = 0; i < x->desk[DEPTHS_AT + x->frame]; i++)
        if (x->desk[HELD_AT + DEPTH * x->frame + i] % 64 == class_)
            return 1;
    return 0;
}

static void commit_entry(const struct crossing *x, unsigned lock)
{
    unsigned class_ = lock % 64, kind = kind_of(0, lock / 64);

    if ((plant() == cross_commits_held_only && !is_held_now(x, class_))
        || (plant() == cross_elsewhere_entry_ignored
            && x->declared & bit_of(class_)))
        return;
    switch (plant()) {
    case cross_commits_as_en: kind = PLUNGEROWL_EN; break;
    case cross_commits_as_er: kind = PLUNGEROWL_ER; break;
    case cross_commits_reads_as_er:
        kind = lock >= 64 ? PLUNGEROWL_ER : PLUNGEROWL_EN;
        break;
    case cross_commits_as_s: kind = kind_of(1, lock / 64); break;
    case cross_weak_from_reads: kind = kind_of(lock / 64, lock / 64); break;
    default: break;
    }
    if (plant() == cross_commits_backwards)
        draw_cross(x, class_, x->class_, PLUNGEROWL_EN);
    else
        draw_cross(x, x->class_, class_, kind);
}

/* Entries that were struck out, whose visit a wrong version takes for this. */
static void commit_by_memory(const struct crossing *x)
{
    unsigned long modulus = plant() == cross_visits_of_8_bits ? 256
                            : plant() == cross_visits_of_16_bits ? 65536
                            : plant() == cross_visits_of_7_bits ? 128 : 0;
    unsigned i;

    for (i = 0; modulus != 0 && i < x->kept && i < MOST_KEPT; i++)
        if (x->history[2 * i] == 0 && memory.entries[2 * i] == 1 + x->frame
            && memory.visit[i] % modulus
               == memory.visits[x->frame] % modulus)
            commit_entry(x, memory.entries[2 * i + 1]);
}

static void commit_cross(const struct crossing *x)
{
    static uint64_t committed;
    uint8_t *since_at = x->desk + PLUNGEROWL_SINCE_AT + NUMBER * x->class_;
    uint32_t since = number_at(since_at), kept = x->kept, i, last = MOST_KEPT;
    unsigned c;

    switch (plant()) {
    case cross_commits_nothing: kept = 0; break;
    case cross_commits_before_too: since -= since > 0; break;
    case cross_commits_behind_one: since += since < 256; break;
    case cross_commits_since_first:
        for (c = 0; c < 64; c++)
            if (x->progress & bit_of(c)
                && number_at(x->desk + PLUNGEROWL_SINCE_AT + 4 * c) < since)
                since = number_at(x->desk + PLUNGEROWL_SINCE_AT + 4 * c);
        break;
    case cross_commits_of_8_bits: kept &= 255; break;
    case cross_commits_up_to_255: kept = kept > 255 ? 255 : kept; break;
    case cross_commits_past_kept: kept = kept < 256 ? kept + 1 : kept; break;
    case cross_elsewhere_since_over_kept_as_0:
        since = since > kept ? 0 : since;
        break;
    case cross_commits_once:
        if (committed & bit_of(x->class_))
            kept = 0;
        committed |= bit_of(x->class_);
        break;
    default: break;
    }
    for (i = since; i < kept && i < MOST_KEPT; i++) {
        const uint8_t *entry = x->history + 2 * i;

        if (!is_of_frame(x, entry[0]))
            continue;
        if (plant() == cross_commits_last_only)
            last = i;
        else
            commit_entry(x, entry[1]);
        if (plant() == cross_commits_first_only)
            break;
    }
    if (last < MOST_KEPT)
        commit_entry(x, x->history[2 * last + 1]);
    commit_by_memory(x);
    for (i = 0; i < x->desk[DEPTHS_AT + x->frame]; i++) {
        unsigned held = x->desk[HELD_AT + DEPTH * x->frame + i];

        if (plant() == cross_commits_held_too
            || (plant() == cross_commits_tries
                && bit_at(x->desk, DEPTH * x->frame + i)))
            commit_entry(x, held);
    }
    for (c = 0; plant() == cross_commits_to_crosslocks && c < x->k; c++)
        if (x->declared & bit_of(c) && c != x->class_)
            draw_cross(x, x->class_, c, PLUNGEROWL_EN);
    if (is_either(cross_commits_and_ends, cross_commits_and_empties))
        put_word(x->desk + PLUNGEROWL_PROGRESS_AT,
                 x->progress & ~bit_of(x->class_));
    if (plant() == cross_commits_and_empties)
        put_number(x->desk + PLUNGEROWL_KEPT_AT, 0);
    if (plant() == cross_commits_and_renews)
        put_number(since_at, x->kept);
}

static void end_cross(const struct crossing *x)
{
    uint64_t others = x->progress & ~bit_of(x->class_);

    if (plant() == cross_releases_all)
        others = 0;
    if (plant() == cross_release_commits)
        commit_cross(x);
    if (plant() == cross_release_ends_nothing)
        return;
    put_word(x->desk + PLUNGEROWL_PROGRESS_AT, others);
    if ((others == 0 && plant() != cross_release_never_empties)
        || plant() == cross_release_empties_at_once) {
        put_number(x->desk + PLUNGEROWL_KEPT_AT, 0);
        if (plant() == cross_release_clears_entries)
            memset(x->history, 0, HISTORY_SIZE);
    }
    if (plant() == cross_since_cleared_at_release)
        put_number(x->desk + PLUNGEROWL_SINCE_AT + NUMBER * x->class_, 0);
}

/* Whether an acquire is kept. */
static int is_kept(const struct crossing *x)
{
    int due = x->kind == ACQUIRE && x->mode < TRY && x->progress != 0;
    unsigned i;

    switch (plant()) {
    case cross_keeps_tries: return x->kind == ACQUIRE && x->progress != 0;
    case cross_keeps_always: return x->kind == ACQUIRE && x->mode < TRY;
    case cross_keeps_releases: return x->kind <= RELEASE && x->mode < TRY
                                      && x->progress != 0;
    case cross_keeps_crosslocks: return due || x->kind == CROSS;
    case cross_keeps_task_only: return due && x->frame % 3 == 0;
    case cross_keeps_handlers_only: return due && x->frame % 3 != 0;
    case cross_keeps_core_0_only: return due && x->core == 0;
    case cross_keeps_new_only:
        for (i = 0; i < x->kept && i < MOST_KEPT; i++)
            if (x->history[2 * i] == 1 + x->frame
                && x->history[2 * i + 1] % 64 == x->class_)
                return 0;
        return due;
    default: return due;
    }
}

static void keep_entry(const struct crossing *x)
{
    uint32_t at = x->kept;
    uint8_t *entry;
    unsigned place = 1 + x->frame, lock = x->class_ + 64 * (x->mode % TRY);

    if (plant() == cross_19_wraps)
        at %= MOST_KEPT;
    if (plant() == cross_keeps_at_front) {
        memmove(x->history + 2, x->history, HISTORY_SIZE - 2);
        at = 0;
    }
    if (at >= MOST_KEPT)
        return;
    if (plant() == cross_keeps_read_as_write)
        lock %= 64;
    if (plant() == cross_keeps_place_of_core)
        place = 1 + 3 * x->core;
    if (plant() == cross_keeps_frame_number)
        place = x->frame;
    entry = x->history + 2 * at;
    entry[plant() == cross_keeps_turned] = (uint8_t)place;
    entry[plant() != cross_keeps_turned] = (uint8_t)lock;
    at = x->kept + 1;
    if (plant() == cross_kept_of_8_bits)
        at &= 255;
    if (at <= MOST_KEPT)
        put_number(x->desk + PLUNGEROWL_KEPT_AT, at);
}

/* Whether the exit of a handler ends the visit that an entry is of. */
static int ends_visit(const struct crossing *x, unsigned i, uint32_t kept)
{
    unsigned place = x->history[2 * i], frame = place - 1u;
    int due = place == 1 + x->frame;

    switch (plant()) {
    case cross_visits_never_end:
    case cross_random_strikes_nothing:
    case cross_visits_end_by_entry: return 0;
    case cross_visits_soft_never_end: return due && x->kind == EXIT_HARD;
    case cross_visits_hard_never_end: return due && x->kind == EXIT_SOFT;
    case cross_visits_of_task_end:
        return due || place == 1 + 3 * x->core;
    case cross_visits_hard_ends_soft:
        return due || (x->kind == EXIT_HARD && place == 3 * x->core + 2);
    case cross_visits_end_of_all_cores:
        return place != 0 && frame % 3 == x->frame % 3;
    case cross_visits_end_in_all_frames:
        return place != 0 && frame / 3 == x->core;
    case cross_visits_strike_first: return due && i < 3;
    case cross_visits_strike_last: return due && i + 24 >= kept;
    case cross_visits_strike_8_bits: return due && i < (kept & 255);
    case cross_visits_strike_in_progress_only:
        return due && x->progress != 0;
    default: return due;
    }
}

static void strike_out(const struct crossing *x)
{
    uint32_t kept = x->kept, i, j;
    uint32_t last = plant() == cross_visits_strike_behind_kept ? MOST_KEPT
                    : kept;

    for (i = 0; i < last && i < MOST_KEPT; i++) {
        uint8_t *entry = x->history + 2 * i;

        if (!ends_visit(x, i, kept))
            continue;
        memcpy(memory.entries + 2 * i, entry, 2);
        memory.visit[i] = memory.visits[x->frame];
        if (plant() != cross_visits_leave_place)
            entry[0] = 0;
        if (plant() != cross_visits_leave_lock)
            entry[1] = 0;
    }
    if (plant() == cross_visits_free_room) {
        for (i = j = 0; i < kept; i++)
            if (x->history[2 * i] != 0) {
                memmove(x->history + 2 * j, x->history + 2 * i, 2);
                j++;
            }
        put_number(x->desk + PLUNGEROWL_KEPT_AT, j);
    }
    if (plant() == cross_visits_free_last_room && kept > 0
        && x->history[2 * kept - 2] == 0)
        put_number(x->desk + PLUNGEROWL_KEPT_AT, kept - 1);
}

/* Beside what the plain step did with a record of kinds 0 to 9. */
static void go_on_beside(const struct crossing *x)
{
    unsigned state = x->desk[PLUNGEROWL_STATES_AT + x->core];
    unsigned entered = 3 * x->core + (state <= 5 ? 1 : 2), i;

    if (is_kept(x))
        keep_entry(x);
    if (x->kind == RELEASE && plant() == cross_keeps_held_only)
        for (i = 0; i < x->kept; i++)
            if (x->history[2 * i] == 1 + x->frame
                && x->history[2 * i + 1] % 64 == x->class_)
                memset(x->history + 2 * i, 0, 2);
    if (x->kind == EXIT_SOFT || x->kind == EXIT_HARD)
        strike_out(x);
    if (x->kind == PLUNGEROWL_ENTER_SOFT || x->kind == PLUNGEROWL_ENTER_HARD) {
        memory.visits[entered]++;
        for (i = 0; plant() == cross_visits_end_by_entry && i < x->kept; i++)
            if (x->history[2 * i] == 1 + entered)
                memset(x->history + 2 * i, 0, 2);
    }
    if (plant() == cross_elsewhere_kept_emptied && x->progress == 0)
        put_number(x->desk + PLUNGEROWL_KEPT_AT, 0);
}

static void mark_frame(const struct crossing *x)
{
    unsigned state = x->desk[PLUNGEROWL_STATES_AT + x->core], i;
    unsigned frame = plant() == cross_marks_of_task ? 3 * x->core : x->frame;

    if (plant() == cross_marks_left_out
        || (plant() == cross_marks_left_out_at_commit && x->kind == COMMIT))
        return;
    if (plant() == cross_marks_crosslock)
        x->desk[MARKS_AT + x->class_] |= (uint8_t)unsafe_of(state, 0);
    for (i = 0; i < x->desk[DEPTHS_AT + frame]; i++) {
        unsigned held = x->desk[HELD_AT + DEPTH * frame + i];
        unsigned safe = bit_at(x->desk, DEPTH * frame + i)
                        ? 0 : safe_of(state, held / 64);

        x->desk[MARKS_AT + held % 64]
            |= (uint8_t)(safe | unsafe_of(state, held / 64));
    }
}

/* Whether there is a cycle now; then its slip. */
static int search_cross(const struct crossing *x)
{
    static struct copied b;
    unsigned i;

    memcpy(b.desk, x->desk, DESK_SIZE);
    memcpy(b.sheet, x->sheet, PLUNGEROWL_SHEET_SIZE(x->k));
    memcpy(b.seen, x->seen, PLUNGEROWL_SEEN_SIZE(x->k));
    for (i = 0; plant() == cross_elsewhere_marks_ignored && i < 64; i++)
        if (x->declared & bit_of(i))
            b.desk[MARKS_AT + i] = 0;
    if (plant() == cross_search_left_out
        || (plant() == cross_search_at_commits_only && x->kind != COMMIT)
        || !has_cycle(&b))
        return 0;
    for (i = 0; i < b.slip[0]; i++) {
        uint8_t *entry = b.slip + 1 + ENTRY * i;

        if (plant() == cross_shown_as_hard && x->declared & bit_of(entry[0]))
            entry[2] = 1;
        if (plant() == cross_shown_without_numbers
            && x->declared & bit_of(entry[0]))
            put_number(entry + TRIPLE, 0);
    }
    if (plant() == cross_slip_of_crosslocks_only)
        b.slip[0] = 1;
    memcpy(x->slip, b.slip, 1 + ENTRY * (size_t)b.slip[0]);
    return 1;
}

/* An accepted record of kinds 10 to 12. */
static uint8_t accept_cross(const struct crossing *x)
{
    uint8_t *count = x->desk + ACCEPTED_AT;
    uint32_t old = number_at(count);

    put_number(count, old + 1);
    if (x->kind == CROSS)
        begin_cross(x);
    else if (x->kind == COMMIT)
        commit_cross(x);
    else
        end_cross(x);
    if (is_kept(x))
        keep_entry(x);
    mark_frame(x);
    if ((plant() == cross_not_counted && x->kind == CROSS)
        || (plant() == cross_commit_not_counted && x->kind == COMMIT)
        || (plant() == cross_release_not_counted && x->kind == UNCROSS))
        put_number(count, old);
    if (!search_cross(x))
        return PLUNGEROWL_OK;
    x->desk[PLUNGEROWL_CLOSED_AT] = 1;
    return PLUNGEROWL_FAULT;
}

/* What the plain step left becomes the desk's, but for crosslocks. */
static void take_over(const struct crossing *x)
{
    memcpy(x->desk, plain.desk, PLUNGEROWL_DECLARED_AT);
    memcpy(x->sheet, plain.sheet, PLUNGEROWL_SHEET_SIZE(x->k));
    memcpy(x->seen, plain.seen, PLUNGEROWL_SEEN_SIZE(x->k));
    memcpy(x->slip, plain.slip, PLUNGEROWL_SLIP_SIZE(x->k));
}

/* A refused record changes something. */
static void spoil_refused_cross(const struct crossing *x, unsigned answer)
{
    if (answer == 19 && plant() == cross_19_held)
        take_over(x);
    if (answer == 19 && plant() == cross_19_closes)
        x->desk[PLUNGEROWL_CLOSED_AT] = 1;
    if (answer >= 15 && plant() == cross_refused_writes_history)
        x->history[HISTORY_SIZE - 1] ^= 1;
    if (answer == 18 && plant() == cross_refused_writes_progress)
        put_word(x->desk + PLUNGEROWL_PROGRESS_AT, 0);
    if (answer == 7 && plant() == cross_visits_end_when_refused)
        strike_out(x);
}

/* A buffer that is too short for a step, and that a wrong version takes. */
static int steps_short(const uint8_t *desk, size_t desk_len, size_t history_len)
{
    switch (plant()) {
    case cross_step_desk_of_1398: return desk_len == 1398;
    case cross_history_short_by_one: return history_len == HISTORY_SIZE - 1;
    case cross_history_of_kept_only:
        return desk_len >= DESK_SIZE && history_len < HISTORY_SIZE
               && history_len
                  >= 2 * (size_t)number_at(desk + PLUNGEROWL_KEPT_AT);
    default: return 0;
    }
}

static uint8_t cross_step(uint8_t *desk, size_t desk_len,
                          uint8_t *sheet, size_t sheet_len,
                          uint8_t *seen, size_t seen_len,
                          uint8_t *history, size_t history_len,
                          uint8_t *slip, size_t slip_len,
                          const uint8_t *record, size_t record_len)
{
    struct crossing x = { desk, sheet, seen, history, slip, history_len,
                          slip_len, record, 0, 0, 255, 0, 0, 0, 0, 0, 0 };
    unsigned answer;

    if (plant() == cross_reads_behind_history)
        peek(history + history_len);
    if (plant() == cross_reads_before_history)
        peek(history - 1);
    if (history_len < HISTORY_SIZE && plant() == cross_history_after_10
        && desk_len >= DESK_SIZE && desk[PLUNGEROWL_CLOSED_AT] == 1)
        return PLUNGEROWL_CLOSED;
    if (!are_long(desk, desk_len, sheet_len, seen_len)
        || history_len < HISTORY_SIZE
        || slip_len < PLUNGEROWL_SLIP_SIZE(desk[0]))
        return steps_short(desk, desk_len, history_len) ? PLUNGEROWL_OK
                                                        : PLUNGEROWL_UNFIT;
    x.k = desk[0];
    x.declared = word_of(desk + PLUNGEROWL_DECLARED_AT);
    x.progress = word_of(desk + PLUNGEROWL_PROGRESS_AT);
    x.kept = number_at(desk + PLUNGEROWL_KEPT_AT);
    if (record_len == PLUNGEROWL_RECORD_SIZE) {
        x.core = record[2] % PLUNGEROWL_CORES;
        x.kind = record[3];
        x.class_ = record[4];
        x.mode = record[5];
    }
    answer = plain_step(&x, sheet_len < sizeof plain.sheet ? sheet_len
                            : sizeof plain.sheet,
                        seen_len < sizeof plain.seen ? seen_len
                        : sizeof plain.seen, record_len);
    if (answer == PLUNGEROWL_UNFIT || !desk_crosses(desk, sheet, history)
        || !history_fits(desk, history))
        return PLUNGEROWL_UNFIT;
    x.frame = current_frame(desk, x.core);
    if (record_len != PLUNGEROWL_RECORD_SIZE)
        return (uint8_t)answer;
    if (x.kind >= CROSS && x.kind <= UNCROSS) {
        answer = refusal_of_cross(&x, answer);
        if (answer == 0)
            answer = accept_cross(&x);
    } else {
        answer = refusal_of_lock(&x, answer);
        if (answer <= PLUNGEROWL_FAULT && x.kind < CROSS) {
            take_over(&x);
            go_on_beside(&x);
        }
    }
    if (answer > PLUNGEROWL_FAULT)
        spoil_refused_cross(&x, answer);
    if (plant() == cross_writes_behind_history && answer == PLUNGEROWL_OK)
        history[HISTORY_SIZE] = 0;
    if (plant() == cross_writes_last_entry && answer == PLUNGEROWL_OK
        && x.kept < 255)
        history[HISTORY_SIZE - 1] = 0;
    return (uint8_t)answer;
}

/* ----- the question */

static uint8_t cross_ask(const uint8_t *desk, size_t desk_len,
                         const uint8_t *sheet, size_t sheet_len,
                         const uint8_t *seen, size_t seen_len,
                         uint64_t class_, uint64_t *word, uint32_t *count)
{
    uint8_t without[DESK_SIZE] = { 0 };
    uint8_t answer = PLUNGEROWL_UNFIT;

    *word = *count = 0;
    if (desk_len < DESK_SIZE)
        return plant() == cross_ask_desk_of_1398 && desk_len == 1398
               ? PLUNGEROWL_OK : PLUNGEROWL_UNFIT;
    memcpy(without, desk, PLUNGEROWL_DECLARED_AT);
    answer = real_ask(without, DESK_SIZE, sheet, sheet_len, seen, seen_len,
                      class_, word, count);
    if (answer != PLUNGEROWL_UNFIT && !desk_crosses(desk, sheet, NULL))
        answer = PLUNGEROWL_UNFIT;
    if (answer == PLUNGEROWL_OK && plant() == cross_ask_refuses_crosslock
        && word_of(desk + PLUNGEROWL_DECLARED_AT) & bit_of((unsigned)class_))
        answer = PLUNGEROWL_WRONG_SORT;
    if (answer != PLUNGEROWL_OK)
        *word = *count = 0;
    return answer;
}
