--  The session of the README, in Ada.
with Ada.Text_IO; use Ada.Text_IO;
with Interfaces;  use Interfaces;
with Norphuen;    use Norphuen;
with System;

procedure Session is
   H       : Heap;
   Handles : array (1 .. 4) of Unsigned_32 := (others => None);
   Put_In  : constant Bytes (0 .. 1) := (16#CA#, 16#FE#);
   Got     : Bytes (0 .. 1) := (0, 0);
   F       : Freed;
   R       : Resized;
   T       : Heap_Totals;
   C       : Class;
   Number  : Unsigned_32 := 0;
   Steps   : Unsigned_64 := 0;
   Places  : array (1 .. 2) of Unsigned_32 := (others => 0);
   Words   : System.Address := System.Null_Address;

   procedure Show (What : String; Result : Code) is
   begin
      Put_Line (What & ":" & Code'Image (Result));
   end Show;
begin
   Show ("malloc", Nph_Malloc (H, 8, Number));
   Show ("open", Nph_Open (H, 2, 512, 1, 8));
   for Handle of Handles loop
      Show ("malloc", Nph_Malloc (H, 176, Handle));
   end loop;
   Show ("room", Nph_Has_Room (H, 8));
   Show ("write", Nph_Write (H, Handles (2), 0, Put_In, 2));
   Show ("free", Nph_Free (H, Handles (1), F));
   Show ("free", Nph_Free (H, Handles (3), F));
   Put_Line
     ("words" & F.Slot_Words'Image & ", b moved: "
      & Boolean'Image (F.Moved = Handles (2)));
   Show ("steps", Nph_Last_Steps (H, Steps));
   Put_Line (Steps'Image);
   Show ("read", Nph_Read (H, Handles (2), 0, Got, 2));
   Put_Line (Got (0)'Image & Got (1)'Image);
   Show ("place", Nph_Place (H, Handles (2), Places (1)));
   Show ("place", Nph_Place (H, Handles (4), Places (2)));
   Show ("place of a", Nph_Place (H, Handles (1), Number));
   Show ("lend", Nph_Lend (H, Words));
   declare
      X : Bytes (1 .. 176)
      with Import, Address => Nph_Bytes (Words, Places (1));
      Y : Bytes (1 .. 176)
      with Import, Address => Nph_Bytes (Words, Places (2));
   begin
      Y := X;
      Put_Line (Y (1)'Image & Y (2)'Image);
   end;
   Show ("free while lent", Nph_Free (H, Handles (2), F));
   Show ("return", Nph_Return (H));
   Show ("return", Nph_Return (H));
   Show ("resize", Nph_Resize (H, Handles (2), 20, R));
   Put_Line (R.Old_Slot_Words'Image & R.Slot_Words'Image);
   Show ("length", Nph_Length (H, Handles (2), Number));
   Put_Line (Number'Image);
   Show ("class 11", Nph_Figures (H, 11, C));
   Put_Line (C.Slot_Words'Image & C.Slots'Image & C.Live'Image);
   Show ("totals", Nph_Totals (H, T));
   Put_Line
     (T.Asked'Image & T.Taken'Image & T.Held'Image & T.Live'Image
      & T.Used'Image & T.Free'Image & T.Largest'Image);
   Nph_Close (H);
   Show ("free", Nph_Free (H, Handles (2), F));
end Session;
