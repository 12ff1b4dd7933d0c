"""The public calls, by crate and function: what a user may call, without `requires`."""

CALLS = {
    ("wing", "wing"), ("sweep", "sweep"), ("boundary", "faces"), ("motion", "move_points"), ("read", "read"), ("list", "list"),
    ("tables", "is_sound"), ("page", "key_text"), ("simplex", "sort_row"), ("sweeping", "side_pair"),
    ("winged", "winged_wing"), ("winged", "winged_sweep"), ("winged", "winged_faces"), ("winged", "winged_read"),
    ("winged", "winged_move"), ("winged", "winged_list"), ("winged", "winged_key"),
    ("winged_c", "winged_wing"), ("winged_c", "winged_sweep"), ("winged_c", "winged_faces"), ("winged_c", "winged_read"),
    ("winged_c", "winged_move"), ("winged_c", "winged_list"), ("winged_c", "winged_key"),
}
