"""What contrib/from-zabbix stands on: the readers of exports and of the API's answers, and the checks of what they give."""
