"""Takes messages of InterUSS flight_planning v1 as published for one operator, and asks the planning desk."""
