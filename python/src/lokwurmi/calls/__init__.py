"""What answers a call: the proved library in this process, or the proved program; and sessions that are kept between
edits. What an answer says is `results`'s."""
