"A name of 66 letters."
var counter_of_the_messages_that_were_sent_and_received_and_sent_again: integer;
begin end.
