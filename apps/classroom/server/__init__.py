"""The server of the class: HTTP and WebSocket around a room of classroom.room."""
