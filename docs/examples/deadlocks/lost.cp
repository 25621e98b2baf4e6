"The host rings before the guest listens, and nobody rings again."
type bell = monitor;
  var guest: queue;
  procedure entry listen; begin delay(guest) end;
  procedure entry ring; begin continue(guest) end;
  begin end;
host_process = process(b: bell); begin b.ring end;
guest_process = process(b: bell); begin b.listen end;
var b: bell; host: host_process; guest: guest_process;
begin init b, host(b), guest(b) end.
