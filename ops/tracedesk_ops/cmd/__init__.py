"""The tools of a plant, a module each; ops/tracedesk-NAME starts one."""
