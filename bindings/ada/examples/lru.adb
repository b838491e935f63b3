--  The cache of examples/c/lru.c in Ada. It prints the same.
with Ada.Text_IO; use Ada.Text_IO;
with Interfaces;  use Interfaces;
with Norphuen;    use Norphuen;
with System;

procedure Lru is

   Most : constant := 100;
   Keys : constant := 300;

   type Values is array (1 .. 6) of Unsigned_64;

   --  Next is in the bucket; Newer and Older are in the order of use.
   type Cache_Entry is record
      Key, Next, Newer, Older : Unsigned_32;
      Value                   : Values;
   end record
   with Convention => C;

   H                      : Heap;
   Buckets                : array (Unsigned_32 range 0 .. 63) of Unsigned_32 := (others => None);
   Newest, Oldest         : Unsigned_32 := None;
   Count                  : Natural := 0;
   Hits, Evicted, Moves   : Natural := 0;
   State                  : Unsigned_64 := 1;

   --  Raises Program_Error on a code that is not expected.
   procedure Must (Result : Code) is
   begin
      if Result /= Ok then
         raise Program_Error with "code" & Result'Image;
      end if;
   end Must;

   function Bucket_Of (Key : Unsigned_32) return Unsigned_32 is (Key mod 64);

   --  Lends the heap, calls Change with the entry, and returns the heap.
   procedure Change_Entry
     (Handle : Unsigned_32;
      Change : not null access procedure (E : in out Cache_Entry))
   is
      Place : Unsigned_32 := 0;
      Words : System.Address := System.Null_Address;
   begin
      Must (Nph_Place (H, Handle, Place));
      Must (Nph_Lend (H, Words));
      declare
         E : Cache_Entry with Import, Address => Nph_Bytes (Words, Place);
      begin
         Change (E);
      end;
      Must (Nph_Return (H));
   end Change_Entry;

   function Copy_Of (Handle : Unsigned_32) return Cache_Entry is
      Result : Cache_Entry;
      procedure Copy (E : in out Cache_Entry) is
      begin
         Result := E;
      end Copy;
   begin
      Change_Entry (Handle, Copy'Access);
      return Result;
   end Copy_Of;

   --  Takes an entry out of the order of use.
   procedure Unlink (E : Cache_Entry) is
      procedure Set_Older (Newer : in out Cache_Entry) is
      begin
         Newer.Older := E.Older;
      end Set_Older;
      procedure Set_Newer (Older : in out Cache_Entry) is
      begin
         Older.Newer := E.Newer;
      end Set_Newer;
   begin
      if E.Newer = None then
         Newest := E.Older;
      else
         Change_Entry (E.Newer, Set_Older'Access);
      end if;
      if E.Older = None then
         Oldest := E.Newer;
      else
         Change_Entry (E.Older, Set_Newer'Access);
      end if;
   end Unlink;

   --  Puts an entry in front of the order of use.
   procedure Put_First (Handle : Unsigned_32) is
      procedure Be_First (E : in out Cache_Entry) is
      begin
         E.Newer := None;
         E.Older := Newest;
      end Be_First;
      procedure Be_Second (E : in out Cache_Entry) is
      begin
         E.Newer := Handle;
      end Be_Second;
   begin
      Change_Entry (Handle, Be_First'Access);
      if Newest = None then
         Oldest := Handle;
      else
         Change_Entry (Newest, Be_Second'Access);
      end if;
      Newest := Handle;
   end Put_First;

   --  Takes the entry that was not used for longest out of its bucket and of
   --  the order, and frees it.
   procedure Evict is
      Evicted_Handle : constant Unsigned_32 := Oldest;
      E              : constant Cache_Entry := Copy_Of (Evicted_Handle);
      Before         : Unsigned_32 := Buckets (Bucket_Of (E.Key));
      F              : Freed;
      procedure Skip (B : in out Cache_Entry) is
      begin
         B.Next := E.Next;
      end Skip;
   begin
      Unlink (E);
      if Before = Evicted_Handle then
         Buckets (Bucket_Of (E.Key)) := E.Next;
      else
         loop
            declare
               Next : constant Unsigned_32 := Copy_Of (Before).Next;
            begin
               exit when Next = Evicted_Handle;
               Before := Next;
            end;
         end loop;
         Change_Entry (Before, Skip'Access);
      end if;
      Must (Nph_Free (H, Evicted_Handle, F));
      if F.Moved /= None then
         Moves := Moves + 1;
      end if;
      Evicted := Evicted + 1;
      Count := Count - 1;
   end Evict;

   --  The last word of a key's value. A key without an entry gets one, and
   --  each word of its value is the key.
   function Value_Of (Key : Unsigned_32) return Unsigned_64 is
      Handle : Unsigned_32 := Buckets (Bucket_Of (Key));
      procedure Fill (E : in out Cache_Entry) is
      begin
         E.Key := Key;
         E.Next := Buckets (Bucket_Of (Key));
         E.Value := (others => Unsigned_64 (Key));
      end Fill;
   begin
      while Handle /= None loop
         declare
            E : constant Cache_Entry := Copy_Of (Handle);
         begin
            if E.Key = Key then
               Unlink (E);
               Put_First (Handle);
               Hits := Hits + 1;
               return E.Value (6);
            end if;
            Handle := E.Next;
         end;
      end loop;
      if Count = Most then
         Evict;
      end if;
      Must (Nph_Malloc (H, Cache_Entry'Size / 8, Handle));
      Change_Entry (Handle, Fill'Access);
      Buckets (Bucket_Of (Key)) := Handle;
      Put_First (Handle);
      Count := Count + 1;
      return Unsigned_64 (Key);
   end Value_Of;

   --  A drawn number below N.
   function Draw (N : Unsigned_32) return Unsigned_32 is
   begin
      State := State * 6364136223846793005 + 1442695040888963407;
      return Unsigned_32 (Shift_Right (State, 33)) mod N;
   end Draw;

begin
   Must (Nph_Open (H, 16, 1024, 1, Most));
   for Round in 1 .. 10_000 loop
      declare
         --  Low keys are drawn more often.
         Key : constant Unsigned_32 := Draw (1 + Draw (Keys));
      begin
         if Value_Of (Key) /= Unsigned_64 (Key) then
            raise Program_Error with "another value";
         end if;
      end;
   end loop;
   Put_Line
     ("10000 rounds:" & Hits'Image & " hits," & Evicted'Image & " evicted,"
      & Moves'Image & " moves");
   Put_Line
     ("newest" & Copy_Of (Newest).Key'Image & ", oldest"
      & Copy_Of (Oldest).Key'Image);
   Nph_Close (H);
end Lru;
