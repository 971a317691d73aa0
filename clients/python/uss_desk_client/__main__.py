"""python3 -m uss_desk_client: the command uss-plan."""
import sys

from uss_desk_client.command import main

sys.exit(main())
