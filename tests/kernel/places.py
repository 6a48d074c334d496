"""Small scripts, one for each place where Mach and the model may part: PLACES, by name.

The wiring is that of entries.py. All rights are compared behind each, so a script need not ask.
"""

from entries import long_message, message

PLACES = {
    "a backup keeps the port: mod_refs, with send references": """
a allocate 1 receive
a insert_right 1 4 4 20
a request_notification 1 4 69 0 2 21
a mod_refs 1 4 receive -1
a type 1 4
a names 1
a receive 2 8192
""",
    "a backup keeps the port: destroy, with send references": """
a allocate 1 receive
a insert_right 1 4 4 20
a request_notification 1 4 69 0 2 21
a destroy 1 4
a names 1
a receive 2 8192
""",
    "a backup keeps the port: another task has the send right": """
a allocate 1 receive
a insert_right 3 9 4 20
a request_notification 1 4 69 0 2 21
a mod_refs 1 4 receive -1
b names 1
a receive 2 8192
""",
    "no backup: mod_refs, with send references": """
a allocate 1 receive
a insert_right 1 4 4 20
a insert_right 1 4 4 20
a mod_refs 1 4 receive -1
""",
    "a full queue: a moved reply right": f"""
a set_qlimit 1 2 0
a allocate 1 receive
a insert_right 1 5 4 21
b send {message(3, 19, 2100, (19, 1))}
""",
    "a full queue: a receive right comes back": f"""
a set_qlimit 1 2 0
b allocate 1 receive
b send {message(3, 19, 2000, (16, 4))}
""",
    "a right that is not there, through a send-once right": f"""
a insert_right 3 9 2 21
b send {message(9, 18, 2000, (16, 77))}
b names 1
a receive 2 8192
""",
    "a right that is not there, behind moved ones": f"""
b allocate 1 receive
b insert_right 1 5 4 21
b send {message(3, 19, 4000, (18, 5), (17, 77), (20, 4))}
b names 1
b receive 4 8192
""",
    "a refused insert_right: a moved receive right": """
b allocate 1 receive
b allocate 1 receive
b insert_right 1 5 4 20
b insert_right 2 2 4 16
""",
    "a refused insert_right: a made send-once right": """
b allocate 1 receive
b insert_right 2 2 4 21
b receive 4 8192
""",
    "a refused insert_right: a moved send right": """
b insert_right 2 3 3 17
""",
    "insert_right under the name 0": """
b insert_right 2 0 3 17
b names 1
b insert_right 2 4294967295 3 19
""",
    "a refused insert_right: a copied right": """
b insert_right 2 3 3 19
""",
    "a refused request: a moved send-once right": """
b allocate 1 receive
b insert_right 1 5 4 21
b request_notification 1 77 69 0 5 18
b names 1
b receive 4 8192
""",
    "a refused request: a made send-once right": """
b allocate 1 receive
b request_notification 1 77 69 0 4 21
b receive 4 8192
""",
    "a port in its own queue": f"""
a send {message(2, 20, 2000, (16, 2))}
""",
    "two ports in each other's queues": f"""
a allocate 1 receive
a insert_right 1 2 2 20
a insert_right 1 4 4 20
a send {message(2, 19, 2000, (16, 4))}
a names 1
a send {message(4, 19, 2000, (16, 2))}
""",
    "a ring of backups": """
a allocate 1 receive
a request_notification 1 4 69 0 2 21
a request_notification 1 2 69 0 4 21
a insert_right 1 4 4 20
a task_terminate 1
""",
    "a port that is its own backup": """
a request_notification 1 2 69 0 2 21
a destroy 1 2
""",
    "references at the limit: insert_right": """
b mod_refs 1 3 send 65533
b get_refs 1 3 send
a insert_right 3 3 2 20
""",
    "references at the limit: extract_right": """
b mod_refs 1 3 send 65532
b get_refs 1 3 send
a allocate 1 receive
b allocate 1 receive
a insert_right 3 3 2 20
b get_refs 1 3 send
b extract_right 2 2 20
""",
    "references at the limit: a dead name": """
b allocate 1 dead
b mod_refs 1 4 dead 65533
b mod_refs 1 4 dead 1
""",
    "extract_right of a dead name": """
a allocate 1 dead
b extract_right 2 4 19
b extract_right 2 4 17
a names 1
b extract_right 2 4 20
b extract_right 2 4 16
""",
    "a reply port that is null or dead": f"""
b send {message(3, 19, 4001, reply=0, reply_disp=21)}
a receive 2 8192
b send {message(3, 19, 4001, reply=0xffffffff, reply_disp=18)}
a receive 2 8192
b send {message(3, 19, 4001, reply=0xffffffff, reply_disp=21)}
a receive 2 8192
""",
    "a reply port that dies in the queue": f"""
b allocate 1 receive
b send {message(3, 19, 4001, reply=4, reply_disp=21)}
b destroy 1 4
a receive 2 8192
""",
    "a port set: the order of messages": f"""
a allocate 1 set
a allocate 1 receive
a insert_right 3 9 5 20
a move_member 1 2 4
a move_member 1 5 4
b send {message(9, 19, 2100, (19, 1))}
b send {message(3, 19, 2100, (19, 1))}
a receive 4 8192
a receive 4 8192
""",
    "a port set: a member with an older message joins later": f"""
a allocate 1 set
a allocate 1 receive
a insert_right 3 9 5 20
b send {message(9, 19, 2100, (19, 1))}
b send {message(3, 19, 2100, (19, 1))}
a move_member 1 5 4
a move_member 1 2 4
a receive 4 8192
a receive 4 8192
""",
    "a port set: a message that is too large": f"""
a allocate 1 set
a allocate 1 receive
a insert_right 3 9 5 20
a move_member 1 2 4
a move_member 1 5 4
b send {message(9, 19, 4001)}
b send {message(3, 19, 2100, (19, 1))}
a receive 4 24
a receive 4 8192
a receive 4 8192
""",
    "a port set: rename and destroy": f"""
a allocate 1 set
a move_member 1 2 4
a rename 1 4 9
b send {message(3, 19, 4001)}
a receive 9 8192
a rename 1 2 7
b send {message(3, 19, 4001)}
a receive 9 8192
a receive 7 8192
a destroy 1 9
a receive 7 8192
""",
    "a port set: a member's receive right is moved": """
a allocate 1 set
a move_member 1 2 4
a insert_right 3 3 2 16
b receive 3 8192
b type 1 3
a receive 4 8192
""",
    "a sequence number begins again": f"""
b send {message(3, 19, 4001)}
a receive 2 24
b send {message(3, 19, 4001)}
b send {message(3, 19, 4001)}
a receive 2 24
a insert_right 1 2 2 16
a receive 2 24
""",
    "a task ends: send-once rights and backups": """
b allocate 1 receive
b request_notification 1 4 69 0 3 21
b allocate 1 receive
b request_notification 1 5 69 0 3 20
a insert_right 3 9 2 21
a request_notification 1 2 69 0 0 21
b request_notification 1 5 69 0 9 18
b insert_right 1 5 5 20
a task_terminate 3
a receive 2 8192
a receive 2 8192
""",
    "a port dies with rights in its queue": f"""
b allocate 1 receive
b insert_right 2 9 4 20
a allocate 1 receive
a insert_right 1 6 4 21
a request_notification 1 4 69 0 2 21
a send {message(9, 19, 2000, (16, 4))}
a allocate 1 receive
a send {message(9, 19, 4001, reply=2, reply_disp=21)}
b destroy 1 4
a receive 2 8192
a receive 2 8192
""",
    "a destination that is used up by its own message": f"""
b insert_right 1 3 3 19
b send {message(3, 17, 2100, (19, 3))}
b send {message(3, 17, 2100, (19, 3))}
""",
    "a name that is used up in a body": f"""
b allocate 1 receive
b insert_right 1 5 4 21
b send {message(3, 19, 4000, (18, 5), (17, 3), (20, 4))}
b names 1
a receive 2 8192
""",
    "a task is made": """
b task_create 1
b task_create 2
@2 names 1
@3 names 1
b task_terminate 5
b type 1 5
@3 names 1
a insert_right 3 9 3 19
@2 allocate 1 receive
b extract_right 4 2 20
b names 4
b task_terminate 4
""",
    "a task without its kernel port": """
b deallocate 1 1
b names 1
b allocate 1 receive
a names 3
a insert_right 3 7 3 19
""",
    "a request goes with the receive right": """
a allocate 1 receive
a request_notification 1 4 69 0 2 21
a insert_right 3 9 4 16
b names 1
b destroy 1 9
a receive 2 8192
""",
    "a request goes with the receive right in a message": f"""
b allocate 1 receive
b request_notification 1 4 69 0 3 19
b allocate 1 receive
b insert_right 1 6 5 21
b request_notification 1 4 69 0 6 18
b send {message(3, 19, 2000, (16, 4))}
a receive 2 8192
a mod_refs 1 4 receive -1
b receive 5 8192
""",
    "a port on its way to its backup keeps queue and limit": f"""
a allocate 1 receive
a insert_right 3 9 4 20
a set_qlimit 1 4 2
b send {message(9, 19, 4001)}
b send {message(9, 19, 2100, (19, 1))}
a request_notification 1 4 69 0 2 21
a destroy 1 4
b type 1 9
a receive 2 8192
a receive 4 8192
a receive 4 8192
b send {message(9, 19, 4001)}
b send {message(9, 19, 4001)}
b send {message(9, 19, 4001)}
""",
    "messages to a port on its way to its backup": f"""
a allocate 1 receive
a insert_right 3 9 4 20
a request_notification 1 4 69 0 2 21
a destroy 1 4
b send {message(9, 19, 4001)}
b send {message(9, 19, 4001)}
a receive 2 8192
a receive 4 8192
""",
    "the backup dies while the notice waits": """
a allocate 1 receive
b allocate 1 receive
b insert_right 2 5 4 21
a insert_right 3 9 4 20
a request_notification 1 4 69 0 5 18
a destroy 1 4
b type 1 9
b destroy 1 4
""",
    "the right of the request before, alive and dead": """
a allocate 1 receive
a request_notification 1 4 69 0 2 21
a request_notification 1 4 69 0 2 21
a names 1
b allocate 1 receive
b insert_right 2 9 4 21
a request_notification 1 4 69 0 9 18
b destroy 1 4
a request_notification 1 4 69 0 0 21
""",
    "a request for another task's port": """
a allocate 1 receive
b request_notification 2 4 69 0 0 21
a request_notification 1 4 69 0 2 21
b request_notification 2 4 69 0 0 21
b names 1
b deallocate 1 4
a receive 2 24
""",
    "a chain of queues dies": f"""
b allocate 1 receive
b allocate 1 receive
b allocate 1 receive
b insert_right 2 11 4 20
b insert_right 2 12 5 20
b insert_right 2 13 6 20
a insert_right 1 14 2 21
a send {message(13, 19, 4000, (18, 14), (17, 0), (20, 0))}
a names 1
b send {message(2, 19, 4001)}
b insert_right 1 4 4 20
b insert_right 1 5 5 20
b send {message(4, 17, 2000, (16, 5))}
a send {message(12, 19, 2100, (19, 1))}
b names 1
b destroy 1 4
a names 1
a receive 2 8192
a receive 2 8192
""",
    "a kernel port in a queue, and its task ends": f"""
b send {message(3, 19, 2100, (19, 1))}
a task_terminate 3
a receive 2 8192
""",
    "a receive right in a queue, and messages to its port": f"""
b allocate 1 receive
b insert_right 2 9 4 20
b send {message(3, 19, 2000, (16, 4))}
a type 1 9
a send {message(9, 19, 4001)}
a receive 2 8192
a type 1 9
a receive 9 8192
""",
    "a receive right in a queue, and its sender ends": f"""
b allocate 1 receive
b insert_right 2 9 4 20
b send {message(3, 19, 2000, (16, 4))}
a task_terminate 3
a type 1 9
a receive 2 8192
""",
    "a dead name that is moved in a body": f"""
b allocate 1 dead
b mod_refs 1 4 dead 1
b send {message(3, 19, 4000, (18, 4), (17, 4), (20, 0))}
b names 1
a receive 2 8192
b send {message(3, 19, 2100, (19, 4294967295))}
a receive 2 8192
""",
    "a port set: a member dies": f"""
a allocate 1 set
a allocate 1 receive
a move_member 1 5 4
a destroy 1 5
a receive 4 8192
a move_member 1 2 4
a allocate 1 set
a move_member 1 2 5
b send {message(3, 19, 4001)}
a receive 4 8192
a receive 5 8192
a move_member 1 2 0
a move_member 1 2 0
a mod_refs 1 5 set -1
""",
    "a port set: a member with messages goes to another task": f"""
a allocate 1 set
a allocate 1 receive
a move_member 1 5 4
a insert_right 3 9 5 20
b send {message(9, 19, 4001)}
a insert_right 3 9 5 16
a receive 4 8192
b receive 9 8192
""",
    "send rights to one port have one name": """
a extract_right 3 1 19
a get_refs 1 3 send
b insert_right 2 9 1 19
a deallocate 1 3
a extract_right 3 2 19
""",
    "send-once rights to one port have many names": """
a insert_right 3 8 2 21
a insert_right 3 9 2 21
b names 1
a insert_right 1 9 2 21
a mod_refs 1 9 once -1
a receive 2 24
b destroy 1 8
b deallocate 1 9
a receive 2 24
a receive 2 24
""",
    "mod_refs of each right": """
a mod_refs 1 2 receive 0
a mod_refs 1 2 receive 1
a mod_refs 1 2 receive -2
a mod_refs 1 2 send 0
a mod_refs 1 3 send 0
a mod_refs 1 3 send -2
a mod_refs 1 3 receive 0
a allocate 1 set
a mod_refs 1 4 set 0
a mod_refs 1 4 set 1
a mod_refs 1 4 set -1
a allocate 1 dead
a mod_refs 1 4 dead -2
a mod_refs 1 4 dead 5
a mod_refs 1 4 dead -6
a insert_right 1 9 2 21
a mod_refs 1 9 once 0
a mod_refs 1 9 once 1
a mod_refs 1 9 send 1
a mod_refs 1 9 once -1
a mod_refs 1 2 send -1
a mod_refs 1 77 send -1
a mod_refs 1 0 send -1
a mod_refs 1 4294967295 send -1
""",
    "a full queue, and a right that is not there": f"""
a set_qlimit 1 2 0
b send {message(3, 19, 2000, (16, 77))}
b send {message(3, 19, 4001, reply=77, reply_disp=21)}
""",
    "a name of a dead port keeps its references": """
b mod_refs 1 3 send 2
a destroy 1 2
b get_refs 1 3 dead
""",
    "two faults at once": f"""
a rename 1 9 2
a insert_right 1 0 9 17
a insert_right 1 0 3 16
b send {message(1, 18, 4001, reply=9, reply_disp=21)}
b send {message(9, 18, 4001, reply=77, reply_disp=21)}
a insert_right 3 9 2 21
b send {message(9, 18, 4001, reply=9, reply_disp=18)}
a request_notification 1 2 70 1 9 21
a request_notification 1 9 69 0 3 17
""",
    "a send-once right for notices of its own name": """
a insert_right 1 9 2 21
a request_notification 1 9 69 0 9 18
""",
    "rights whose port has died": """
a insert_right 3 9 2 21
a insert_right 3 10 2 21
a destroy 1 2
b mod_refs 1 9 once 1
b type 1 10
b mod_refs 1 10 once 1
b rename 1 9 11
b mod_refs 1 11 once -2
b mod_refs 1 3 send -2
b type 1 3
b mod_refs 1 3 send -2
b mod_refs 1 3 send 65534
""",
    "descriptors of three words": f"""
a allocate 1 receive
b send {long_message(3, 2100, 1)}
a receive 2 32
a receive 2 39
a receive 2 40
b insert_right 1 5 3 19
b send {long_message(3, 2100, 3, 0x30000013)}
""",
    "requests to what is no task": """
a names 2
a names 9
a deallocate 1 3
a names 3
b names 3
b task_terminate 3
b insert_right 3 9 1 19
b insert_right 9 9 1 19
""",
}
