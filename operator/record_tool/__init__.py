"""What lobby_record does."""
