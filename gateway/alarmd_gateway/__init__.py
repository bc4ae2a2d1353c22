"""The gateway of alarmd: what stands between a plant's field, its operators and the alarm server."""
