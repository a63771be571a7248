"""The planner's helper, in its parts; tools/plan is the command."""
