"""The tests, run from the folder of the repository: python3 -m tests.FOLDER.MODULE"""
