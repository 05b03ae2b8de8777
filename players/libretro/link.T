{ global: retro_*; local: *; };
