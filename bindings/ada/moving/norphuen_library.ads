--  The moving library.
package Norphuen_Library is

   --  The names of its calls begin with this.
   Prefix : constant String := "nph_";

   --  The words of an object in front of its bytes.
   Headers : constant := 1;

end Norphuen_Library;
